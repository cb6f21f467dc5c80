using System;
using System.Collections.Generic;
using System.Linq;
using System.Threading.Tasks;

namespace TaskGraph.Internals
{
    /// <summary>What a declaration has to keep, beyond what the program says of its document.</summary>
    internal static class GraphRules
    {
        /// <summary>The tasks that this one waits for.</summary>
        internal static IEnumerable<GraphTask> AwaitedBy(GraphTask task)
        {
            return task.Of ?? (task.Antecedent == null ? new GraphTask[0] : new[] { task.Antecedent });
        }

        /// <summary>Whether the task is a continuation whose options allow how its antecedent ended.</summary>
        internal static bool AllowsStart(GraphTask task, TaskStatus antecedent)
        {
            return OptionWords.Allow(task.Options, antecedent);
        }

        /// <exception cref="ArgumentException">No task ends so.</exception>
        internal static void CheckFinal(TaskStatus final)
        {
            if (final != TaskStatus.RanToCompletion && final != TaskStatus.Canceled && final != TaskStatus.Faulted)
            {
                throw new ArgumentException(
                    "a task ends in RanToCompletion, Canceled or Faulted, and not in " + final + "; name one of these");
            }
        }

        /// <summary>Checks a task that is to be declared.</summary>
        /// <exception cref="ArgumentException">It can't be declared so.</exception>
        internal static void CheckNew(GraphTask task)
        {
            Name.Checked(task.Name);
            if (task.Of == null && task.Body == null)
            {
                throw new ArgumentNullException("body", "a task has a body; give " + task.Name + " a job or Steps");
            }
            CheckOptions(task);
            GraphTask child = AwaitedBy(task).FirstOrDefault(it => it.Kind == TaskKind.Child);
            if (child != null)
            {
                throw new ArgumentException(
                    task.Name + " waits for the child " + child.Name + ", which may never be started; let it wait for the child's parent");
            }
        }

        /// <summary>Works out what is known once all tasks and steps are declared.</summary>
        /// <exception cref="ArgumentException">A child isn't started, or is started twice; a site stands twice; an async body
        /// checks another token than its task's own; a body looks at an antecedent where there is none, or names a token or an input
        /// of another graph.</exception>
        internal static void Complete(IList<GraphTask> tasks)
        {
            foreach (GraphTask task in tasks.Where(it => it.Body != null))
            {
                CheckBody(task);
                CompleteBody(task);
            }
            GraphTask lost = tasks.FirstOrDefault(it => it.Kind == TaskKind.Child && it.Parent == null);
            if (lost != null)
            {
                throw new ArgumentException("nobody starts the child " + lost.Name + "; add Start to the steps of its parent");
            }
            CheckSites(tasks);
        }

        /// <exception cref="ArgumentException">A site that is to fail isn't there, or its job isn't declared with mayFail.</exception>
        internal static void CheckFailing(IEnumerable<GraphTask> tasks, IEnumerable<string> sites)
        {
            Step[] jobs = tasks.Where(it => it.Body != null).SelectMany(it => it.Body.All).Where(it => it.Kind == StepKind.Work).ToArray();
            foreach (string site in sites.Where(it => !jobs.Any(job => job.Text == it && job.MayFail)))
            {
                throw new ArgumentException(
                    jobs.Any(it => it.Text == site)
                        ? "the job " + site + " isn't declared with mayFail, and so can't fail; declare it so"
                        : "no job is named " + site + "; there are " + string.Join(", ", jobs.Select(it => it.Text)));
            }
        }

        private static void CheckOptions(GraphTask task)
        {
            const TaskContinuationOptions longAndSync =
                TaskContinuationOptions.LongRunning | TaskContinuationOptions.ExecuteSynchronously;
            if (task.Kind != TaskKind.Then && (task.Options & ~OptionWords.Creation) != 0)
            {
                throw new ArgumentException(task.Name + " has an option of continuations alone; make it by ContinueWith");
            }
            if (task.Has(OptionWords.AllNotOn))
            {
                throw new ArgumentException(task.Name + " would start after no end of its antecedent; make it two tasks by ContinueWith");
            }
            if (task.Has(longAndSync))
            {
                throw new ArgumentException(
                    task.Name + " has LongRunning and ExecuteSynchronously, which ContinueWith refuses; choose one");
            }
        }

        private static void CheckBody(GraphTask task)
        {
            if (task.Kind != TaskKind.Then && task.Body.LooksAtSubject)
            {
                throw new ArgumentException(
                    task.Name + " has Observe or When in its steps, and continues no task; make it by ContinueWith of the task it looks at");
            }
            foreach (Step step in task.Body.All)
            {
                task.Graph.DemandOwn(step.Token);
                task.Graph.DemandOwn(step.Input);
            }
        }

        private static void CompleteBody(GraphTask task)
        {
            task.Body.Close();
            task.IsAsync = task.Body.IsAsync;
            if (task.IsAsync && task.Body.All.Any(it => it.Kind == StepKind.Check && it.Token != task.Token))
            {
                throw new ArgumentException(
                    task.Name + " awaits a job and checks another token than its own: an async method is Canceled by the exception of"
                    + " any token. Give the task that token, or make the job one that isn't awaited");
            }
            Step[] starts = task.Body.All.Where(it => it.Kind == StepKind.Start).ToArray();
            if (task.IsAsync && starts.Length > 0)
            {
                // after an await there is no current task, so that no child attaches
                task.Options |= TaskContinuationOptions.DenyChildAttach;
            }
            foreach (Step start in starts)
            {
                StartChild(task, start.Child);
            }
        }

        private static void StartChild(GraphTask parent, GraphTask child)
        {
            if (child.Parent != null || child.Graph != parent.Graph)
            {
                throw new ArgumentException(
                    "the child " + child.Name + " is started once, in a body of its own graph; declare another Child");
            }
            child.Parent = parent;
            if (child.Has(TaskContinuationOptions.AttachedToParent) && !parent.Has(TaskContinuationOptions.DenyChildAttach))
            {
                parent.Attached.Add(child);
            }
        }

        private static void CheckSites(IEnumerable<GraphTask> tasks)
        {
            var sites = new HashSet<string>();
            foreach (Step job in tasks.Where(it => it.Body != null).SelectMany(it => it.Body.All).Where(it => it.Kind == StepKind.Work))
            {
                if (!sites.Add(job.Text))
                {
                    throw new ArgumentException("two jobs are named " + job.Text + "; write the body as Steps, with another site in Work");
                }
            }
        }
    }
}
