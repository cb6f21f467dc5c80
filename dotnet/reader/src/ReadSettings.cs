using System.Collections.Generic;

namespace TaskGraph.Reading
{
    /// <summary>What the reader is told beside the method.</summary>
    internal sealed class ReadSettings
    {
        /// <summary>Jobs that throw nothing, by their names.</summary>
        public HashSet<string> Safe { get; } = new HashSet<string>();

        /// <summary>Methods that are jobs though they touch tasks, by their names.</summary>
        public HashSet<string> Jobs { get; } = new HashSet<string>();

        /// <summary>Whether an async job without a token may end Canceled all the same.</summary>
        public bool MayCancel { get; set; }

        /// <summary>Whether a last task reads the exception of the method, as a caller that awaits it does.</summary>
        public bool HasCaller { get; set; }
    }
}
