namespace TaskGraph.Internals
{
    /// <summary>What one step of a body does.</summary>
    internal enum StepKind
    {
        Return,
        Throw,
        Check,
        Cancel,
        Start,
        Observe,
        Work,
        If,
        When,
    }
}
