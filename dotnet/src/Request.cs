namespace TaskGraph.Internals
{
    /// <summary>A request of a token that is an event of its own, or the step of a call of Cancel.</summary>
    internal sealed class Request
    {
        internal GraphToken Token { get; }

        /// <summary>The record of the call of Cancel that makes it; none where the outside does.</summary>
        internal int Call { get; }

        /// <summary>The gap into which it is written: that in which it was seen, or a later one.</summary>
        internal int Place { get; }

        internal Request(GraphToken token, int call, int place)
        {
            Token = token;
            Call = call;
            Place = place;
        }
    }
}
