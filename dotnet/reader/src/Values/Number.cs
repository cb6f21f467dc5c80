namespace TaskGraph.Reading
{
    /// <summary>A number that is known; a bool is 0 or 1.</summary>
    internal sealed class Number : Value
    {
        public Number(long value)
        {
            Amount = value;
        }

        public long Amount { get; }

        public override string Key => "i" + Amount;

        public override bool? Truth => Amount != 0;

        public static Number Of(bool value) => new Number(value ? 1 : 0);
    }
}
