namespace TaskGraph.Internals
{
    /// <summary>One record, made under the one lock at an instant at which exactly the tasks had ended, and the tokens were requested,
    /// that were seen so far.</summary>
    internal struct Record
    {
        /// <summary>The task of a record that no body made.</summary>
        internal const int NoTask = -1;

        internal RecordKind Kind { get; set; }

        /// <summary>Whose body made it.</summary>
        internal int Task { get; set; }

        /// <summary>The token of a check or a cancel; the child of a start.</summary>
        internal int Target { get; set; }

        /// <summary>The number of the worker.</summary>
        internal byte Worker { get; set; }

        /// <summary>How many ends and requests had been seen.</summary>
        internal int Seen { get; set; }

        /// <summary>Ticks of Stopwatch since the run began.</summary>
        internal long Time { get; set; }
    }
}
