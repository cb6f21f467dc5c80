using System;
using System.Collections.Generic;
using System.Linq;
using System.Threading;
using System.Threading.Tasks;
using TaskGraph.Internals;

namespace TaskGraph
{
    /// <summary>What the body of a task does, step by step.</summary>
    /// <remarks>The steps are written into the document and they are what runs, so a body can't differ from its declaration.
    /// Code that touches no task and no token is one job: <see cref="Work(string, Action, bool)"/>. A body with a job that is
    /// awaited is an async method: its task is that of Task.Run(async ..), or of ContinueWith(async ..).Unwrap(). Steps are added
    /// before the document of their graph is made and before it is started.</remarks>
    public sealed class Steps
    {
        internal List<Step> List { get; } = new List<Step>();
        private bool isClosed;

        /// <summary>Makes a list without steps.</summary>
        public Steps()
        {
        }

        /// <summary>Ends the body, as a return statement does.</summary>
        /// <exception cref="InvalidOperationException">The graph is complete: its document was made, or it was started.</exception>
        public Steps Return() => Add(new Step { Kind = StepKind.Return });

        /// <summary>Ends the body by an exception.</summary>
        /// <param name="label">What the document calls the exception.</param>
        /// <param name="exception">Makes the exception; an InvalidOperationException if left out.</param>
        /// <exception cref="ArgumentException">It is no name.</exception>
        /// <exception cref="InvalidOperationException">The graph is complete: its document was made, or it was started.</exception>
        public Steps Throw(string label, Func<Exception> exception = null)
        {
            return ThrowOf(label, _ => exception == null ? new InvalidOperationException(label) : exception());
        }

        internal Steps ThrowOf(string label, Func<Task, Exception> exception)
        {
            return Add(new Step { Kind = StepKind.Throw, Text = Name.Checked(label), Exception = exception });
        }

        /// <summary>Ends the body where the token is requested: CancellationToken.ThrowIfCancellationRequested.</summary>
        /// <exception cref="InvalidOperationException">The graph is complete: its document was made, or it was started.</exception>
        public Steps Check(GraphToken token)
        {
            return Add(new Step { Kind = StepKind.Check, Token = NotNull(token, nameof(token)) });
        }

        /// <summary>Requests the token: CancellationTokenSource.Cancel.</summary>
        /// <exception cref="ArgumentException">The token's source isn't known here.</exception>
        public Steps Cancel(GraphToken token)
        {
            NotNull(token, nameof(token)).DemandSource();
            return Add(new Step { Kind = StepKind.Cancel, Token = token });
        }

        /// <summary>Starts a child: Task.Factory.StartNew inside a body.</summary>
        /// <param name="child">A task that was made by <see cref="TaskGraphBuilder.Child(string, Steps, TaskCreationOptions,
        /// GraphToken, string, int)"/>.</param>
        /// <exception cref="ArgumentException">It isn't a task that Child made.</exception>
        public Steps Start(GraphTask child)
        {
            if (child == null || child.Kind != TaskKind.Child)
            {
                throw new ArgumentException("a body starts children: make the task by Child");
            }
            return Add(new Step { Kind = StepKind.Start, Child = child });
        }

        /// <summary>Reads the exception of the antecedent, or of the winner where the antecedent is a WhenAny task:
        /// Task.Exception.</summary>
        /// <exception cref="InvalidOperationException">The graph is complete: its document was made, or it was started.</exception>
        public Steps Observe() => Add(new Step { Kind = StepKind.Observe });

        /// <summary>Does a job.</summary>
        /// <param name="site">The job's name, which stands once in a graph.</param>
        /// <param name="job">Code that touches no task and no token of the graph.</param>
        /// <param name="mayFail">Whether the job may throw.</param>
        /// <exception cref="ArgumentException">It is no name.</exception>
        /// <exception cref="InvalidOperationException">The graph is complete: its document was made, or it was started.</exception>
        public Steps Work(string site, Action job, bool mayFail = false)
        {
            NotNull(job, nameof(job));
            return AddJob(site, null, _ => job(), null, mayFail);
        }

        /// <summary>Does a job that is given the antecedent, whose result it may read. Where it reads the exception, let
        /// <see cref="Observe"/> stand before it.</summary>
        /// <exception cref="ArgumentException">It is no name.</exception>
        /// <exception cref="InvalidOperationException">The graph is complete: its document was made, or it was started.</exception>
        public Steps Work(string site, Action<Task> job, bool mayFail = false)
        {
            return AddJob(site, null, NotNull(job, nameof(job)), null, mayFail);
        }

        /// <summary>Does a job that may stop by the token, and then checks the token. Where the job throws the
        /// OperationCanceledException of the requested token, it counts as done, and the check ends the body.</summary>
        /// <exception cref="ArgumentException">It is no name.</exception>
        /// <exception cref="InvalidOperationException">The graph is complete: its document was made, or it was started.</exception>
        public Steps Work(string site, GraphToken token, Action<CancellationToken> job, bool mayFail = false)
        {
            CancellationToken real = NotNull(token, nameof(token));
            NotNull(job, nameof(job));
            return AddJob(site, token, _ => job(real), null, mayFail).Check(token);
        }

        /// <summary>Awaits a job.</summary>
        /// <exception cref="ArgumentException">It is no name.</exception>
        /// <exception cref="InvalidOperationException">The graph is complete: its document was made, or it was started.</exception>
        public Steps Work(string site, Func<Task> job, bool mayFail = false)
        {
            NotNull(job, nameof(job));
            return AddJob(site, null, null, _ => job(), mayFail);
        }

        /// <summary>Awaits a job that is given the antecedent, whose result it may read. Where it reads the exception, let
        /// <see cref="Observe"/> stand before it.</summary>
        /// <exception cref="ArgumentException">It is no name.</exception>
        /// <exception cref="InvalidOperationException">The graph is complete: its document was made, or it was started.</exception>
        public Steps Work(string site, Func<Task, Task> job, bool mayFail = false)
        {
            return AddJob(site, null, null, NotNull(job, nameof(job)), mayFail);
        }

        /// <summary>Awaits a job that may stop by the token, and then checks the token. Where the job throws the
        /// OperationCanceledException of the requested token, it counts as done, and the check ends the body.</summary>
        /// <exception cref="ArgumentException">It is no name.</exception>
        /// <exception cref="InvalidOperationException">The graph is complete: its document was made, or it was started.</exception>
        public Steps Work(string site, GraphToken token, Func<CancellationToken, Task> job, bool mayFail = false)
        {
            CancellationToken real = NotNull(token, nameof(token));
            NotNull(job, nameof(job));
            return AddJob(site, token, null, _ => job(real), mayFail).Check(token);
        }

        /// <summary>Goes on with the one or the other list of steps, by the value of an input.</summary>
        /// <param name="input">The input.</param>
        /// <param name="then">What is done where it is true.</param>
        /// <param name="otherwise">What is done where it is false; nothing if left out.</param>
        /// <exception cref="InvalidOperationException">The graph is complete: its document was made, or it was started.</exception>
        public Steps If(GraphInput input, Steps then, Steps otherwise = null)
        {
            if (input == null || then == null)
            {
                throw new ArgumentNullException(input == null ? nameof(input) : nameof(then));
            }
            return Add(new Step { Kind = StepKind.If, Input = input, Then = then, Otherwise = otherwise ?? new Steps() });
        }

        /// <summary>Goes on with the one or the other list of steps, by how the antecedent ended, or the winner where the
        /// antecedent is a WhenAny task: Task.Status.</summary>
        /// <param name="final">RanToCompletion, Canceled or Faulted.</param>
        /// <param name="then">What is done where it ended so.</param>
        /// <param name="otherwise">What is done where it didn't; nothing if left out.</param>
        /// <exception cref="ArgumentException">No task ends so.</exception>
        public Steps When(TaskStatus final, Steps then, Steps otherwise = null)
        {
            GraphRules.CheckFinal(final);
            if (then == null)
            {
                throw new ArgumentNullException(nameof(then));
            }
            return Add(new Step { Kind = StepKind.When, Final = final, Then = then, Otherwise = otherwise ?? new Steps() });
        }

        /// <summary>Adds the steps of another list.</summary>
        /// <exception cref="InvalidOperationException">The graph is complete: its document was made, or it was started.</exception>
        public Steps Append(Steps other)
        {
            foreach (Step step in NotNull(other, nameof(other)).List.ToArray())
            {
                Add(step);
            }
            return this;
        }

        /// <summary>Each step, those of branches too, in textual order.</summary>
        internal IEnumerable<Step> All =>
            List.SelectMany(it => it.IsBranch ? new[] { it }.Concat(it.Then.All).Concat(it.Otherwise.All) : new[] { it });

        internal bool IsAsync => All.Any(it => it.AsyncJob != null);

        /// <summary>Whether the body looks at how its subject ended.</summary>
        internal bool LooksAtSubject => All.Any(it => it.Kind == StepKind.Observe || it.Kind == StepKind.When);

        /// <summary>Takes no more steps, since the graph is complete.</summary>
        internal void Close()
        {
            isClosed = true;
            foreach (Step branch in List.Where(it => it.IsBranch))
            {
                branch.Then.Close();
                branch.Otherwise.Close();
            }
        }

        private Steps Add(Step step)
        {
            if (isClosed)
            {
                throw new InvalidOperationException(
                    "the graph of these steps is complete, since its document was made or it was started; add steps before that");
            }
            List.Add(step);
            return this;
        }

        private Steps AddJob(string site, GraphToken token, Action<Task> job, Func<Task, Task> asyncJob, bool mayFail)
        {
            return Add(new Step
            {
                Kind = StepKind.Work, Text = Name.Checked(site), Token = token, Job = job, AsyncJob = asyncJob, MayFail = mayFail,
            });
        }

        private static T NotNull<T>(T given, string name)
            where T : class
        {
            if (given == null)
            {
                throw new ArgumentNullException(name);
            }
            return given;
        }
    }
}
