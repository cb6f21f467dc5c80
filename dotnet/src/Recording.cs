using System.Collections.Generic;
using System.Linq;
using System.Threading.Tasks;

namespace TaskGraph.Internals
{
    /// <summary>What was recorded of a run.</summary>
    internal sealed class Recording
    {
        /// <summary>The records, the last of which is a look.</summary>
        internal Record[] Records { get; }

        /// <summary>What was seen, in order: a task that ended as its number, a requested token by <see cref="TokenSeen"/>.</summary>
        internal int[] Seen { get; }

        internal bool[] IsFinal { get; }
        internal TaskStatus[] Ends { get; }
        internal Task[] Real { get; }
        internal RunNote[] Notes { get; }

        internal Recording(
            IEnumerable<Record> records, IEnumerable<int> seen, bool[] isFinal, TaskStatus[] ends, Task[] real, IEnumerable<RunNote> notes)
        {
            Records = records.ToArray();
            Seen = seen.ToArray();
            IsFinal = (bool[])isFinal.Clone();
            Ends = (TaskStatus[])ends.Clone();
            Real = (Task[])real.Clone();
            Notes = notes.ToArray();
        }

        /// <summary>The token of this number, among what was seen; and back.</summary>
        internal static int TokenSeen(int token) => ~token;
    }
}
