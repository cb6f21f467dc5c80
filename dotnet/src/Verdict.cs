namespace TaskGraph
{
    /// <summary>What is known of a claim.</summary>
    public enum Verdict
    {
        /// <summary>A certificate shows that the claim holds in every run.</summary>
        Holds,

        /// <summary>It holds in every run, for a reason that makes it say nothing: its task never begins, say.</summary>
        Empty,

        /// <summary>There is a run in which it fails.</summary>
        Fails,

        /// <summary>Neither a certificate nor a run in which it fails was found.</summary>
        Unknown,
    }
}
