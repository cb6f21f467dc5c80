namespace TaskGraph.Internals
{
    /// <summary>What a journal says of a task so far.</summary>
    internal sealed class WrittenTask
    {
        /// <summary>The worker that begins it: w and its number.</summary>
        internal string Worker { get; set; }

        /// <summary>Of a child: whether it was started.</summary>
        internal bool IsStarted { get; set; }

        internal bool HasBegun { get; set; }

        /// <summary>Whether the last instruction of its body has been passed.</summary>
        internal bool IsOver { get; set; }

        internal bool HasLeft { get; set; }
        internal bool HasEnded { get; set; }

        /// <summary>Who did the act that ended it; null where it had ended before the first event.</summary>
        internal string EndedBy { get; set; }

        /// <summary>How many events there were then.</summary>
        internal int EndPlace { get; set; }
    }
}
