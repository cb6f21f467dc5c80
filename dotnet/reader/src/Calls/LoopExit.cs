namespace TaskGraph.Reading
{
    /// <summary>A way out of a loop.</summary>
    internal sealed class LoopExit
    {
        public LoopExit(int from, int target, bool isLeave)
        {
            From = from;
            Target = target;
            IsLeave = isLeave;
        }

        public int From { get; }

        public int Target { get; }

        /// <summary>Whether it leaves protected blocks, whose finally blocks run first.</summary>
        public bool IsLeave { get; }
    }
}
