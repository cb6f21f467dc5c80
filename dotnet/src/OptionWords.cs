using System.Collections.Generic;
using System.Linq;
using System.Threading.Tasks;

namespace TaskGraph.Internals
{
    /// <summary>The words of TaskCreationOptions and TaskContinuationOptions.</summary>
    internal static class OptionWords
    {
        /// <summary>The bits that TaskCreationOptions and TaskContinuationOptions share.</summary>
        internal const TaskContinuationOptions Creation = TaskContinuationOptions.PreferFairness | TaskContinuationOptions.LongRunning
            | TaskContinuationOptions.AttachedToParent | TaskContinuationOptions.DenyChildAttach | TaskContinuationOptions.HideScheduler
            | TaskContinuationOptions.RunContinuationsAsynchronously;

        /// <summary>What excludes each end of an antecedent.</summary>
        internal const TaskContinuationOptions AllNotOn = TaskContinuationOptions.NotOnRanToCompletion
            | TaskContinuationOptions.NotOnFaulted | TaskContinuationOptions.NotOnCanceled;

        private static readonly TaskContinuationOptions[] Plain =
        {
            TaskContinuationOptions.PreferFairness, TaskContinuationOptions.LongRunning, TaskContinuationOptions.AttachedToParent,
            TaskContinuationOptions.DenyChildAttach, TaskContinuationOptions.HideScheduler, TaskContinuationOptions.LazyCancellation,
            TaskContinuationOptions.RunContinuationsAsynchronously, TaskContinuationOptions.ExecuteSynchronously,
        };

        private static readonly TaskContinuationOptions[] OnlyOn =
        {
            TaskContinuationOptions.OnlyOnRanToCompletion, TaskContinuationOptions.OnlyOnFaulted, TaskContinuationOptions.OnlyOnCanceled,
        };

        private static readonly TaskContinuationOptions[] NotOn =
        {
            TaskContinuationOptions.NotOnRanToCompletion, TaskContinuationOptions.NotOnFaulted, TaskContinuationOptions.NotOnCanceled,
        };

        /// <summary>The words whose sum these options are; OnlyOn words rather than pairs of NotOn words.</summary>
        internal static IEnumerable<string> Of(TaskContinuationOptions options)
        {
            IEnumerable<TaskContinuationOptions> plain = Plain.Where(it => options.HasFlag(it));
            TaskContinuationOptions excluded = options & AllNotOn;
            return plain.Concat(OnlyOn.Contains(excluded) ? new[] { excluded } : NotOn.Where(it => excluded.HasFlag(it)))
                .Select(Word);
        }

        /// <summary>Whether a continuation with these options may start after an antecedent that ended so.</summary>
        internal static bool Allow(TaskContinuationOptions options, TaskStatus end)
        {
            switch (end)
            {
                case TaskStatus.RanToCompletion: return (options & TaskContinuationOptions.NotOnRanToCompletion) == 0;
                case TaskStatus.Faulted: return (options & TaskContinuationOptions.NotOnFaulted) == 0;
                default: return (options & TaskContinuationOptions.NotOnCanceled) == 0;
            }
        }

        private static string Word(TaskContinuationOptions option) => option.ToString();
    }
}
