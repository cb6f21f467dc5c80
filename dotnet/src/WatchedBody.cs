using System;
using System.Diagnostics.CodeAnalysis;
using System.Linq;
using System.Threading;
using System.Threading.Tasks;
using TaskGraph.Internals;

namespace TaskGraph
{
    /// <summary>What a wrapped body does, step by step as it is declared.</summary>
    public sealed class WatchedBody
    {
        private readonly GraphRun run;
        private readonly GraphTask task;
        private readonly int worker;
        private bool hasWorked;

        internal WatchedBody(GraphRun run, GraphTask task, Task antecedent, int worker)
        {
            this.run = run;
            this.task = task;
            this.worker = worker;
            Antecedent = antecedent;
        }

        /// <summary>The antecedent of a continuation; null for others.</summary>
        [MaybeNull]
        public Task Antecedent { get; }

        /// <summary>Does a job.</summary>
        public void Work(Action job)
        {
            Watch(null, job);
        }

        /// <summary>Does a job that gives a result.</summary>
        public T Work<T>(Func<T> job)
        {
            T result = default(T);
            Watch(null, () => { result = job(); });
            return result;
        }

        /// <summary>Does a job that may stop by the token, and then checks the token, as
        /// <see cref="Steps.Work(string, GraphToken, Action{CancellationToken}, bool)"/> declares it.</summary>
        public void Work(GraphToken token, Action<CancellationToken> job)
        {
            Watch(token, () => job(token));
            Check(token);
        }

        /// <summary>Does a job that gives a result and may stop by the token, and then checks the token.</summary>
        public T Work<T>(GraphToken token, Func<CancellationToken, T> job)
        {
            T result = default(T);
            Watch(token, () => { result = job(token); });
            Check(token);
            return result;
        }

        /// <summary>Awaits a job.</summary>
        public Task WorkAsync(Func<Task> job) => WatchAsync(null, job);

        /// <summary>Awaits a job that gives a result.</summary>
        public async Task<T> WorkAsync<T>(Func<Task<T>> job)
        {
            Task<T> made = null;
            await WatchAsync(null, () => made = job()).ConfigureAwait(false);
            return made.Result;
        }

        /// <summary>Awaits a job that may stop by the token, and then checks the token, as
        /// <see cref="Steps.Work(string, GraphToken, Func{CancellationToken, Task}, bool)"/> declares it.</summary>
        public async Task WorkAsync(GraphToken token, Func<CancellationToken, Task> job)
        {
            await WatchAsync(token, () => job(token)).ConfigureAwait(false);
            Check(token);
        }

        /// <summary>Awaits a job that gives a result and may stop by the token, and then checks the token.</summary>
        public async Task<T> WorkAsync<T>(GraphToken token, Func<CancellationToken, Task<T>> job)
        {
            Task<T> made = null;
            await WatchAsync(token, () => made = job(token)).ConfigureAwait(false);
            Check(token);
            return made.Result;
        }

        /// <summary>Makes a call as it is declared, behind what reads the exception before it.</summary>
        internal Task CallAsync(Func<Task> call)
        {
            PutObserved();
            return WorkAsync(call);
        }

        internal Task<T> CallAsync<T>(Func<Task<T>> call)
        {
            PutObserved();
            return WorkAsync(call);
        }

        internal Task CallAsync(GraphToken token, Func<CancellationToken, Task> call)
        {
            PutObserved();
            return WorkAsync(token, call);
        }

        /// <summary>Checks a token: CancellationToken.ThrowIfCancellationRequested.</summary>
        public void Check(GraphToken token)
        {
            if (run.Recorder.Check(task.Id, worker, token.Id))
            {
                throw new OperationCanceledException(token.CancellationToken);
            }
        }

        /// <summary>Requests a token: CancellationTokenSource.Cancel.</summary>
        /// <exception cref="ArgumentException">The token's source isn't known here.</exception>
        public void Cancel(GraphToken token)
        {
            token.DemandSource();
            Put(RecordKind.CancelCalled, token.Id);
            try
            {
                token.Source.Cancel();
            }
            finally
            {
                Put(RecordKind.CancelReturned, token.Id);
            }
        }

        /// <summary>Starts a child.</summary>
        /// <param name="child">The child's declaration.</param>
        /// <param name="start">Makes and starts the real task.</param>
        public T Start<T>(GraphTask child, Func<T> start)
            where T : Task
        {
            Put(RecordKind.Start, child.Id);
            return run.Is(child, start());
        }

        /// <summary>Reads the exception of the antecedent, or of the winner where the antecedent is declared as a WhenAny task:
        /// Task.Exception.</summary>
        /// <exception cref="InvalidOperationException">The body has no antecedent.</exception>
        [return: MaybeNull]
        public AggregateException Observe()
        {
            if (Antecedent == null)
            {
                throw new InvalidOperationException(task.Name + " continues no task, so that there is nothing to observe; wrap by Next");
            }
            AggregateException exception = Subject().Exception;
            Put(RecordKind.Step);
            return exception;
        }

        /// <summary>Passes a branch on an input, whose value the code has found: <c>if (it.Decide(cached, cache.Has(key)))</c>.</summary>
        /// <param name="input">The input, as <see cref="TaskGraphBuilder.Decides"/> declares it.</param>
        /// <param name="found">The value.</param>
        /// <returns>The value.</returns>
        /// <exception cref="InvalidOperationException">The input has another value already in this run.</exception>
        public bool Decide(GraphInput input, bool found)
        {
            bool value = task.Graph.DemandOwn(input).Note(found);
            Put(RecordKind.Step);
            return value;
        }

        /// <summary>Passes a return, a throw or a branch.</summary>
        public void Step()
        {
            Put(RecordKind.Step);
        }

        /// <summary>The body is over.</summary>
        internal void End()
        {
            Put(RecordKind.Over);
            Step job = task.Body?.List.FirstOrDefault(it => it.Kind == StepKind.Work);
            if (job != null && !hasWorked)
            {
                string what = "the wrapped body of " + task.Name + " reported no job, and is declared with the job " + job.Text;
                run.Recorder.Say(RunNoteKind.Unreported, what + "; put the job into it.Work(..)");
            }
        }

        private void PutObserved()
        {
            foreach (Step _ in task.Body.List.TakeWhile(it => it.Kind == StepKind.Observe))
            {
                Put(RecordKind.Step);
            }
        }

        private Task Subject()
        {
            bool isOfAny = task.Antecedent != null && task.Antecedent.Kind == TaskKind.Any;
            return (isOfAny ? Winner.Of(Antecedent) : null) ?? Antecedent;
        }

        private void Watch(GraphToken token, Action job)
        {
            try
            {
                job();
            }
            catch (Exception thrown)
            {
                PutThrown(token, thrown);
                throw;
            }
            Put(RecordKind.Done);
        }

        private async Task WatchAsync(GraphToken token, Func<Task> job)
        {
            try
            {
                await job().ConfigureAwait(false);
            }
            catch (Exception thrown)
            {
                PutThrown(token, thrown);
                throw;
            }
            Put(RecordKind.Done);
        }

        /// <summary>A job threw: by its token, so that it counts as done and the check behind it ends the body; or it failed.</summary>
        private void PutThrown(GraphToken token, Exception thrown)
        {
            if (token == null || !token.IsStop(thrown))
            {
                Put(RecordKind.Failed);
                if (!task.Body.All.Any(it => it.Kind == StepKind.Work && it.MayFail))
                {
                    string advice = "declare it with mayFail, or catch the exception in the job";
                    run.Recorder.Say(RunNoteKind.Undeclared, Told.Of("the job of " + task.Name, thrown, advice));
                }
                return;
            }
            Put(RecordKind.Done);
            run.Recorder.Check(task.Id, worker, token.Id);
        }

        private void Put(RecordKind kind, int target = 0)
        {
            hasWorked |= kind == RecordKind.Done || kind == RecordKind.Failed;
            run.Recorder.Put(kind, task.Id, worker, target);
        }
    }
}
