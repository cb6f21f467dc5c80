using System.Collections.Generic;
using System.Linq;
using System.Threading.Tasks;

namespace TaskGraph.Internals
{
    /// <summary>What a task does that does no job: it looks at its antecedent, and ends.</summary>
    internal sealed class MarkerPlay
    {
        private static readonly StepKind[] Plain = { StepKind.Return, StepKind.Throw, StepKind.Observe, StepKind.If, StepKind.When };

        private readonly TaskStatus antecedent;

        internal MarkerPlay(GraphTask task, TaskStatus antecedent)
        {
            this.antecedent = antecedent;
            End = TaskStatus.RanToCompletion;
            Pass(task.Body);
        }

        /// <summary>How many steps it passes.</summary>
        internal int Steps { get; private set; }

        /// <summary>How it ends.</summary>
        internal TaskStatus End { get; private set; }

        /// <summary>Whether a body does no job, touches no token, and starts nothing.</summary>
        internal static bool IsMarker(Steps body) => body.All.All(it => Plain.Contains(it.Kind));

        /// <summary>How a WhenAll ends over tasks that ended so.</summary>
        internal static TaskStatus EndOfAll(IEnumerable<TaskStatus> ends)
        {
            return ends.Contains(TaskStatus.Faulted) ? TaskStatus.Faulted
                : ends.Contains(TaskStatus.Canceled) ? TaskStatus.Canceled : TaskStatus.RanToCompletion;
        }

        /// <summary>Passes steps; gives whether the body is over.</summary>
        private bool Pass(Steps steps)
        {
            foreach (Step step in steps.List)
            {
                Steps++;
                bool isYes = step.Kind == StepKind.If ? step.Input.Read() : step.Final == antecedent;
                End = step.Kind == StepKind.Throw ? TaskStatus.Faulted : End;
                bool isOver = step.Kind == StepKind.Throw || step.Kind == StepKind.Return;
                if (isOver || (step.IsBranch && Pass(isYes ? step.Then : step.Otherwise)))
                {
                    return true;
                }
            }
            return false;
        }
    }
}
