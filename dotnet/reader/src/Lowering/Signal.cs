using System.Collections.Generic;
using System.Linq;
using System.Threading.Tasks;

namespace TaskGraph.Reading
{
    /// <summary>Where control arrives: a task ended in this way; or the start, for no task.</summary>
    internal sealed class Signal
    {
        public static readonly Signal Start = new Signal(null, "");

        public Signal(DocumentTask task, string option)
        {
            Task = task;
            Option = option;
        }

        public DocumentTask Task { get; }

        /// <summary>The option of a continuation that begins just then; empty for one that always does.</summary>
        public string Option { get; }

        public bool IsStart => Task == null;

        public bool IsRan => Option == ContinuationFilter.OnlyOnRanToCompletion;

        public bool IsFault => Option == ContinuationFilter.OnlyOnFaulted;

        public static Signal Ran(DocumentTask task) => new Signal(task, ContinuationFilter.OnlyOnRanToCompletion);

        public static Signal Faulted(DocumentTask task) => new Signal(task, ContinuationFilter.OnlyOnFaulted);

        public static Signal Canceled(DocumentTask task) => new Signal(task, ContinuationFilter.OnlyOnCanceled);

        /// <summary>The task has ended, in whichever way.</summary>
        public static Signal Ended(DocumentTask task) => new Signal(task, "");

        public bool IsSameAs(Signal other) => other != null && Task == other.Task && Option == other.Option;

        /// <summary>Gives the text by which signals are told apart.</summary>
        public override string ToString() => IsStart ? "start" : Task.Name + ":" + Option;

        public static List<Signal> Distinct(IEnumerable<Signal> signals)
        {
            var distinct = new List<Signal>();
            foreach (Signal signal in signals)
            {
                if (!distinct.Any(signal.IsSameAs))
                {
                    distinct.Add(signal);
                }
            }
            return distinct;
        }
    }
}
