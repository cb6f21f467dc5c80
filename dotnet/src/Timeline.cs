using System;
using System.Collections.Generic;
using System.Linq;
using System.Threading.Tasks;

namespace TaskGraph.Internals
{
    /// <summary>Where in the records of a run each thing happened.</summary>
    /// <remarks>Gap p is what was seen at record p and not at the record before: it happened between the two.</remarks>
    internal sealed class Timeline
    {
        /// <summary>The gap of what never happened.</summary>
        internal const int Never = int.MaxValue;

        /// <summary>The record of what wasn't recorded.</summary>
        internal const int None = -1;

        internal GraphTask[] Tasks { get; }
        internal GraphToken[] Tokens { get; }
        internal Recording Run { get; }

        /// <summary>For each task the gap in which it was seen to end.</summary>
        internal int[] EndGap { get; }

        /// <summary>For each token the gap in which it was seen requested.</summary>
        internal int[] RequestGap { get; }

        /// <summary>For each task the record of its begin.</summary>
        internal int[] BeginAt { get; }

        // for each WhenAny task that ended the place of its winner in its list
        private readonly int[] winners;

        // for each record of a call of Cancel that of its return, and the other way round
        private readonly Dictionary<int, int> returnOf = new Dictionary<int, int>();
        private readonly Dictionary<int, int> callOf = new Dictionary<int, int>();

        internal Timeline(TaskGraphBuilder graph, Recording run)
        {
            Run = run;
            Tasks = graph.Tasks.ToArray();
            Tokens = graph.Tokens.ToArray();
            EndGap = Enumerable.Repeat(Never, Tasks.Length).ToArray();
            RequestGap = Enumerable.Repeat(Never, Tokens.Length).ToArray();
            BeginAt = Enumerable.Repeat(None, Tasks.Length).ToArray();
            winners = Tasks.Select(WinnersPlace).ToArray();
            ReadSeen();
            ReadRecords();
        }

        internal int Count => Run.Records.Length;

        internal bool HasBegun(GraphTask task) => BeginAt[task.Id] != None;

        internal GraphToken TokenOf(Record record) => Tokens[record.Target];

        internal GraphTask TaskOf(Record record) => Tasks[record.Task];

        /// <summary>The winner of a WhenAny task; null where it hasn't ended, or waited for other tasks than declared.</summary>
        internal GraphTask WinnerOf(GraphTask whenAny)
        {
            int place = winners[whenAny.Id];
            return place == None ? null : whenAny.Of[place];
        }

        /// <summary>The records of calls of Cancel, in order.</summary>
        internal IEnumerable<int> CancelCalls =>
            Enumerable.Range(0, Count).Where(it => Run.Records[it].Kind == RecordKind.CancelCalled);

        /// <summary>The record at which a call of Cancel came back, or the last one.</summary>
        internal int ReturnOf(int call)
        {
            int found;
            return returnOf.TryGetValue(call, out found) ? found : Count - 1;
        }

        internal int CallOf(int back) => callOf[back];

        /// <summary>Whether the token, or a source of it, was requested by this gap.</summary>
        internal bool IsRequested(GraphToken token, int gap)
        {
            return RequestGap[token.Id] <= gap || token.Sources.Any(it => IsRequested(it, gap));
        }

        /// <summary>Whether a continuation's options allow how its antecedent was seen to end.</summary>
        internal bool AllowsStart(GraphTask task) => GraphRules.AllowsStart(task, Run.Ends[task.Antecedent.Id]);

        /// <summary>Whether a body looks at how the winner of this WhenAny task ended.</summary>
        internal static bool IsWinnerLookedAt(GraphTask whenAny)
        {
            return whenAny.Followers.Any(it => it.Kind == TaskKind.Then && it.Body.LooksAtSubject);
        }

        /// <summary>Moves ends of losers behind the end of the winner, where a body looks at the winner, which was seen to end later.
        /// Only ends that nothing stood on meanwhile are moved.</summary>
        internal void PutLosersLater(List<RunNote> notes)
        {
            foreach (GraphTask any in Tasks.Where(it => WinnerOf(it) != null && IsWinnerLookedAt(it)))
            {
                PutLosersLater(any, notes);
            }
        }

        private void PutLosersLater(GraphTask any, List<RunNote> notes)
        {
            GraphTask winner = WinnerOf(any);
            int gap = EndGap[winner.Id];
            foreach (GraphTask loser in any.Of.Distinct().Where(it => gap != Never && EndGap[it.Id] < gap && NobodyStoodOn(it, gap)))
            {
                notes.Add(new RunNote(RunNoteKind.Late, "the end of " + loser.Name + ", since " + any.Name + " took " + winner.Name));
                EndGap[loser.Id] = gap;
            }
        }

        private static bool IsEmptyWhenAll(GraphTask task) => task.Kind == TaskKind.All && task.Of.Length == 0;

        private bool NobodyStoodOn(GraphTask task, int before)
        {
            return !IsEmptyWhenAll(task)
                && task.Followers.All(it => EndGap[it.Id] >= before && (!HasBegun(it) || BeginAt[it.Id] >= before));
        }

        private int WinnersPlace(GraphTask task)
        {
            if (task.Kind != TaskKind.Any || !Run.IsFinal[task.Id] || Run.Ends[task.Id] != TaskStatus.RanToCompletion)
            {
                return None;
            }
            Task winner = Winner.Of(Run.Real[task.Id]);
            return winner == null ? None : Array.FindIndex(task.Of, it => Run.Real[it.Id] == winner);
        }

        private void ReadSeen()
        {
            int next = 0;
            for (int gap = 0; gap < Count; gap++)
            {
                for (; next < Run.Records[gap].Seen; next++)
                {
                    int what = Run.Seen[next];
                    if (what >= 0)
                    {
                        EndGap[what] = gap;
                    }
                    else
                    {
                        RequestGap[Recording.TokenSeen(what)] = gap;
                    }
                }
            }
        }

        private void ReadRecords()
        {
            // a body makes one call of Cancel at a time
            var open = new Dictionary<int, int>();
            for (int place = 0; place < Count; place++)
            {
                Record record = Run.Records[place];
                switch (record.Kind)
                {
                    case RecordKind.Begin:
                        BeginAt[record.Task] = place;
                        break;
                    case RecordKind.CancelCalled:
                        open[record.Task] = place;
                        break;
                    case RecordKind.CancelReturned:
                        returnOf[open[record.Task]] = place;
                        callOf[place] = open[record.Task];
                        break;
                }
            }
        }
    }
}
