namespace TaskGraph.Reading
{
    /// <summary>The task that a WhenAny gives: one of its own, and a document doesn't say which.</summary>
    internal sealed class WinnerValue : Value
    {
        public WinnerValue(PathTask any)
        {
            Any = any;
        }

        public PathTask Any { get; }

        public override string Key => "win" + Any.Id;
    }
}
