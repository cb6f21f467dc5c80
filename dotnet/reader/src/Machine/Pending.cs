namespace TaskGraph.Reading
{
    /// <summary>A finally block or a filter that runs, and what goes on behind it: an exception or a jump.</summary>
    internal sealed class Pending
    {
        private Pending(ThrownValue thrown, int target, int from, int handler)
        {
            Thrown = thrown;
            Target = target;
            From = from;
            Handler = handler;
        }

        public ThrownValue Thrown { get; }

        public bool IsThrow => Thrown != null;

        /// <summary>Where a jump goes.</summary>
        public int Target { get; }

        /// <summary>The place that threw or jumped.</summary>
        public int From { get; }

        /// <summary>The number of the handler that runs.</summary>
        public int Handler { get; }

        public string Key => " p" + IsThrow + Target + "," + Handler + Thrown?.Key;

        public static Pending OfThrow(ThrownValue thrown, int from, int handler) => new Pending(thrown, 0, from, handler);

        public static Pending OfJump(int target, int from, int handler) => new Pending(null, target, from, handler);
    }
}
