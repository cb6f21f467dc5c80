using System.Collections.Generic;
using System.Linq;
using System.Threading.Tasks;

namespace TaskGraph.Internals
{
    /// <summary>What is told of a run: made once of what was recorded.</summary>
    internal sealed class RunAccount
    {
        internal string Journal { get; }
        internal IReadOnlyList<RunNote> Notes { get; }
        internal IReadOnlyList<long> Times { get; }

        /// <summary>How many events of the journal say what happened; all but of a run that is refused.</summary>
        internal int Sayable { get; }

        /// <summary>How each task that was seen to end did so, in declared order.</summary>
        internal IReadOnlyList<KeyValuePair<GraphTask, TaskStatus>> Ends { get; }

        /// <summary>The tasks of which no real task is known and no end, without children, which may never be started.</summary>
        internal IReadOnlyList<GraphTask> Unmade { get; }

        private readonly int seen;
        private readonly int records;

        internal RunAccount(TaskGraphBuilder graph, Recording run, double ticksInMicrosecond)
        {
            var writer = new JournalWriter(graph, run);
            Journal = writer.Write();
            Notes = writer.Notes;
            Sayable = writer.Sayable;
            Times = writer.EventTimes.Select(it => (long)(it / ticksInMicrosecond)).ToArray();
            Ends = graph.Tasks.Where(it => run.IsFinal[it.Id])
                .Select(it => new KeyValuePair<GraphTask, TaskStatus>(it, run.Ends[it.Id])).ToArray();
            Unmade = graph.Tasks.Where(it => it.Kind != TaskKind.Child && run.Real[it.Id] == null && !run.IsFinal[it.Id]).ToArray();
            seen = run.Seen.Length;
            records = run.Records.Length;
        }

        /// <summary>The events that say what happened.</summary>
        internal string SayableJournal => string.Concat(Journal.Split('\n').Take(Sayable).Select(it => it + "\n"));

        /// <summary>Whether nothing was recorded since.</summary>
        internal bool IsOf(Recording run) => run.Seen.Length == seen && run.Records.Length == records;
    }
}
