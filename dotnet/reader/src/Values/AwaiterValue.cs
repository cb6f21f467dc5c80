namespace TaskGraph.Reading
{
    /// <summary>The awaiter of a value.</summary>
    internal sealed class AwaiterValue : Value
    {
        public AwaiterValue(Value awaited)
        {
            Awaited = awaited;
        }

        public Value Awaited { get; }

        public override string Key => "aw" + Awaited.Key;
    }
}
