using System;
using System.Collections.Generic;
using System.Diagnostics;
using System.Diagnostics.CodeAnalysis;
using System.Linq;
using System.Threading;
using System.Threading.Tasks;
using TaskGraph.Internals;

namespace TaskGraph
{
    /// <summary>A run of a graph on the default scheduler, with its record.</summary>
    /// <remarks>Made by <see cref="TaskGraphBuilder.Start"/> and <see cref="TaskGraphBuilder.Watch"/>. The recorder observes no
    /// exception, registers nothing on a task or a token, and attaches nothing to a task that is running.</remarks>
    public sealed class GraphRun
    {
        private const long MicrosecondsInSecond = 1000000;

        private readonly TaskGraphBuilder graph;
        private readonly RunOptions options;
        private readonly Recorder recorder;
        private RunAccount account;

        internal GraphRun(TaskGraphBuilder graph, RunOptions options, bool isOfCode)
        {
            this.graph = graph;
            this.options = options;
            recorder = new Recorder(graph, options.Record, isOfCode);
        }

        /// <summary>The real task; null where it isn't made yet.</summary>
        [MaybeNull]
        public Task this[GraphTask task] => recorder.Real(task.Id);

        /// <summary>The journal so far, an event on each line; that of a complete run once <see cref="Wait"/> gave true.</summary>
        /// <exception cref="InvalidOperationException">The run isn't recorded: RunOptions.Record is false.</exception>
        public string Journal => Account().Journal;

        /// <summary>Where the recorder had to choose, or saw what the declaration doesn't say; empty for a plain run.</summary>
        /// <exception cref="InvalidOperationException">The run isn't recorded: RunOptions.Record is false.</exception>
        public IReadOnlyList<RunNote> Notes => Account().Notes;

        /// <summary>When each event of the journal was, in microseconds from the start; they don't fall. An end, or a request that the
        /// outside made, has the time of the last record before it was seen.</summary>
        /// <exception cref="InvalidOperationException">The run isn't recorded: RunOptions.Record is false.</exception>
        public IReadOnlyList<long> Times => Account().Times;

        /// <summary>How the task was seen to end; null where it hasn't ended, or never started.</summary>
        public TaskStatus? EndOf(GraphTask task) => recorder.EndOf(task.Id);

        /// <summary>Waits until every task has ended, every started child too. It observes no exception.</summary>
        /// <param name="milliseconds">The longest wait, or -1 to wait for ever.</param>
        /// <returns>Whether all have ended.</returns>
        public bool Wait(int milliseconds = Timeout.Infinite)
        {
            Stopwatch watch = Stopwatch.StartNew();
            Task open;
            while ((open = FirstOpen()) != null)
            {
                int left = milliseconds < 0 ? Timeout.Infinite : (int)Math.Max(0, milliseconds - watch.ElapsedMilliseconds);
                // WaitAny doesn't throw what the task threw, and so doesn't observe it
                if (Task.WaitAny(new[] { open }, left) < 0)
                {
                    return false;
                }
            }
            recorder.Put(RecordKind.Look, Record.NoTask, 0);
            return true;
        }

        /// <summary>The document of the graph with the journal of this run, how each task was seen to end, and the times, to be kept for
        /// taskgraph audit and trace. Where <see cref="Audit"/> refuses the run since no journal says what happened, the journal ends before
        /// that, so that taskgraph audit refuses it too.</summary>
        /// <exception cref="InvalidOperationException">The run isn't recorded: RunOptions.Record is false.</exception>
        public string ToJson() => graph.ToJson(Account());

        /// <summary>Asks whether the run is one of the graph, is complete, has no claim that fails, and whether each task ended as the
        /// journal says. Calls the program: see <see cref="TaskGraphProgram"/>.</summary>
        /// <param name="limit">How long the call may take; ten minutes, if left out.</param>
        /// <param name="token">Ends the call.</param>
        /// <exception cref="TaskGraphException">One of these isn't so: with the program's words, the notes and the journal.</exception>
        /// <exception cref="TimeoutException">The time was up before the answer was there.</exception>
        /// <exception cref="OperationCanceledException">The token was requested before the answer was there.</exception>
        public void Audit(TimeSpan? limit = null, CancellationToken token = default(CancellationToken))
        {
            NewAudit().Demand(new CallLimit(limit, token));
        }

        /// <summary>Says that this is the real task, which code that is watched has made. To be called before anything continues it:
        /// <c>var deploy = run.Is(d, Task.Run(run.Body(d, it => it.Work(Deploy))));</c></summary>
        /// <exception cref="ArgumentException">The task is of another graph.</exception>
        /// <exception cref="InvalidOperationException">It has a real task already.</exception>
        public T Is<T>(GraphTask task, T real)
            where T : Task
        {
            if (real == null)
            {
                throw new ArgumentNullException(nameof(real));
            }
            if (this[graph.DemandOwn(task)] != null)
            {
                throw new InvalidOperationException(task.Name + " has a real task already; declare another task for this one");
            }
            recorder.Made(task.Id, real);
            return real;
        }

        /// <summary>Makes a call that code awaits, which is watched and stays as it is: <c>await run.Call(g["Load"], () => Load())</c>. The task
        /// is that of the call; that an exception is read before it, as by a catch, goes without saying.</summary>
        /// <param name="task">The task that the call is declared as.</param>
        /// <param name="call">Makes the call.</param>
        /// <returns>The task of the call.</returns>
        /// <exception cref="ArgumentException">The task is of another graph.</exception>
        /// <exception cref="InvalidOperationException">The task has a real task already: the call is made twice, and declared once.</exception>
        public Task Call(GraphTask task, Func<Task> call) => Is(task, WatchedAsync(task, null, it => it.CallAsync(call)));

        /// <summary>Makes a call that gives a result and that code awaits.</summary>
        /// <exception cref="ArgumentException">The task is of another graph.</exception>
        /// <exception cref="InvalidOperationException">The task has a real task already: the call is made twice, and declared
        /// once.</exception>
        public Task<T> Call<T>(GraphTask task, Func<Task<T>> call) => Is(task, WatchedAsync(task, null, it => it.CallAsync(call)));

        /// <summary>Makes a call that code awaits and that may stop by a token.</summary>
        /// <exception cref="ArgumentException">The task is of another graph.</exception>
        /// <exception cref="InvalidOperationException">The task has a real task already: the call is made twice, and declared
        /// once.</exception>
        public Task Call(GraphTask task, GraphToken token, Func<CancellationToken, Task> call)
        {
            return Is(task, WatchedAsync(task, null, it => it.CallAsync(token, call)));
        }

        /// <summary>Makes a call that isn't awaited: <c>run.Call(g["Close"], () => Close())</c>.</summary>
        /// <exception cref="ArgumentException">The task is of another graph.</exception>
        /// <exception cref="InvalidOperationException">The task has a real task already: the call is made twice, and declared
        /// once.</exception>
        public void Call(GraphTask task, Action call)
        {
            Func<Task> plain = () =>
            {
                call();
                return Task.FromResult(true);
            };
            Call(task, plain).GetAwaiter().GetResult();
        }

        /// <summary>Wraps the body of a root or a child for Task.Run and Task.Factory.StartNew.</summary>
        /// <exception cref="ArgumentException">The task is of another graph, where the body begins.</exception>
        public Action Body(GraphTask task, Action<WatchedBody> body) => () => Watched(task, null, body);

        /// <summary>Wraps the body of a root or a child that gives a result.</summary>
        /// <exception cref="ArgumentException">The task is of another graph, where the body begins.</exception>
        public Func<T> Body<T>(GraphTask task, Func<WatchedBody, T> body)
        {
            DemandNoTask<T>("BodyAsync");
            return () => Watched(task, null, body);
        }

        /// <summary>Wraps the body of a continuation for Task.ContinueWith.</summary>
        /// <exception cref="ArgumentException">The task is of another graph, where the body begins.</exception>
        public Action<Task> Next(GraphTask task, Action<WatchedBody> body)
        {
            return antecedent => Watched(task, antecedent, body);
        }

        /// <summary>Wraps the body of a continuation that gives a result.</summary>
        /// <exception cref="ArgumentException">The task is of another graph, where the body begins.</exception>
        public Func<Task, T> Next<T>(GraphTask task, Func<WatchedBody, T> body)
        {
            DemandNoTask<T>("NextAsync");
            return antecedent => Watched(task, antecedent, body);
        }

        /// <summary>Wraps the body of a root that is an async method, for Task.Run. The graph's task is the one that Task.Run
        /// gives.</summary>
        /// <exception cref="ArgumentException">The task is of another graph, where the body begins.</exception>
        public Func<Task> BodyAsync(GraphTask task, Func<WatchedBody, Task> body)
        {
            return () => WatchedAsync(task, null, body);
        }

        /// <summary>Wraps the body of a root that is an async method with a result, for Task.Run.</summary>
        /// <exception cref="ArgumentException">The task is of another graph, where the body begins.</exception>
        public Func<Task<T>> BodyAsync<T>(GraphTask task, Func<WatchedBody, Task<T>> body)
        {
            return () => WatchedAsync(task, null, body);
        }

        /// <summary>Wraps the body of a continuation that is an async method, for Task.ContinueWith. The graph's task is the unwrapped
        /// one: ContinueWith(..).Unwrap().</summary>
        /// <exception cref="ArgumentException">The task is of another graph, where the body begins.</exception>
        public Func<Task, Task> NextAsync(GraphTask task, Func<WatchedBody, Task> body)
        {
            return antecedent => WatchedAsync(task, antecedent, body);
        }

        /// <summary>Wraps the body of a continuation that is an async method with a result: ContinueWith(..).Unwrap().</summary>
        /// <exception cref="ArgumentException">The task is of another graph, where the body begins.</exception>
        public Func<Task, Task<T>> NextAsync<T>(GraphTask task, Func<WatchedBody, Task<T>> body)
        {
            return antecedent => WatchedAsync(task, antecedent, body);
        }

        internal Recorder Recorder => recorder;

        /// <summary>Makes the real tasks, each with just the options that are declared.</summary>
        internal void Begin()
        {
            var roots = new List<Task>();
            foreach (GraphTask task in graph.Tasks)
            {
                switch (task.Kind)
                {
                    case TaskKind.Root:
                        BeginRoot(task, roots);
                        break;
                    case TaskKind.Then:
                        recorder.Made(task.Id, Continue(task));
                        break;
                    case TaskKind.All:
                        recorder.Made(task.Id, Task.WhenAll(task.Of.Select(it => this[it])));
                        break;
                    case TaskKind.Any:
                        recorder.Made(task.Id, Task.WhenAny(task.Of.Select(it => this[it])));
                        break;
                }
            }
            roots.ForEach(StartOrCancel);
        }

        internal void StartChild(GraphTask child)
        {
            StartOrCancel(MakeBody(child));
        }

        internal RunAudit NewAudit() => new RunAudit(graph, Account());

        private RunAccount Account()
        {
            if (!options.Record)
            {
                throw new InvalidOperationException("the run isn't recorded; start it with RunOptions.Record set to true");
            }
            Recording taken = recorder.Take();
            if (account == null || !account.IsOf(taken))
            {
                account = new RunAccount(graph, taken, Stopwatch.Frequency / (double)MicrosecondsInSecond);
            }
            return account;
        }

        private void BeginRoot(GraphTask task, List<Task> roots)
        {
            Task root = MakeBody(task);
            if (options.StartLast)
            {
                roots.Add(root);
            }
            else
            {
                StartOrCancel(root);
            }
        }

        /// <summary>Makes the task of a root or a child, and keeps it before it is started; gives the task that has to be
        /// started.</summary>
        private Task MakeBody(GraphTask task)
        {
            CancellationToken token = task.Token;
            var creation = (TaskCreationOptions)(task.Options & OptionWords.Creation);
            if (task.IsAsync)
            {
                // an async method takes no children
                var outer = new Task<Task>(() => NewBody(task, null).RunAsync(), token, creation | TaskCreationOptions.DenyChildAttach);
                recorder.Made(task.Id, outer.Unwrap());
                return outer;
            }
            var body = new Task(() => NewBody(task, null).Run(), token, creation);
            recorder.Made(task.Id, body);
            return body;
        }

        private Task Continue(GraphTask task)
        {
            Task antecedent = this[task.Antecedent];
            CancellationToken token = task.Token;
            if (task.IsAsync)
            {
                TaskContinuationOptions closed = task.Options | TaskContinuationOptions.DenyChildAttach;
                return antecedent.ContinueWith(it => NewBody(task, it).RunAsync(), token, closed, TaskScheduler.Default).Unwrap();
            }
            return antecedent.ContinueWith(it => NewBody(task, it).Run(), token, task.Options, TaskScheduler.Default);
        }

        private BodyRunner NewBody(GraphTask task, Task antecedent)
        {
            return new BodyRunner(this, recorder, options, task, antecedent);
        }

        /// <summary>Starts a task as Task.Factory.StartNew does: with a requested token it is a canceled one, where Start throws.</summary>
        private static void StartOrCancel(Task task)
        {
            try
            {
                task.Start(TaskScheduler.Default);
            }
            catch (InvalidOperationException)
            {
                if (!task.IsCanceled)
                {
                    throw;
                }
            }
        }

        /// <summary>A task that hasn't ended; null where there is none. A child is made before its parent ends, so where every task that
        /// was there has ended, a second round finds the children that were made during the first.</summary>
        private Task FirstOpen() => FirstOpenInRound() ?? FirstOpenInRound();

        private Task FirstOpenInRound()
        {
            return graph.Tasks.Select(it => this[it]).FirstOrDefault(it => it != null && !it.IsCompleted);
        }

        /// <exception cref="InvalidOperationException">The body returns a Task, and so is over only once that has ended.</exception>
        private static void DemandNoTask<T>(string call)
        {
            if (typeof(Task).IsAssignableFrom(typeof(T)))
            {
                throw new InvalidOperationException("a body that returns a Task is an async method; wrap it by " + call);
            }
        }

        private void Watched(GraphTask task, Task antecedent, Action<WatchedBody> body)
        {
            recorder.RanIn(task.Id, Task.CurrentId);
            WatchedBody watched = BeginWatched(task, antecedent);
            try
            {
                body(watched);
            }
            finally
            {
                watched.End();
            }
        }

        private T Watched<T>(GraphTask task, Task antecedent, Func<WatchedBody, T> body)
        {
            recorder.RanIn(task.Id, Task.CurrentId);
            WatchedBody watched = BeginWatched(task, antecedent);
            try
            {
                return body(watched);
            }
            finally
            {
                watched.End();
            }
        }

        private async Task WatchedAsync(GraphTask task, Task antecedent, Func<WatchedBody, Task> body)
        {
            WatchedBody watched = BeginWatched(task, antecedent);
            try
            {
                await body(watched).ConfigureAwait(false);
            }
            finally
            {
                watched.End();
            }
        }

        private async Task<T> WatchedAsync<T>(GraphTask task, Task antecedent, Func<WatchedBody, Task<T>> body)
        {
            WatchedBody watched = BeginWatched(task, antecedent);
            try
            {
                return await body(watched).ConfigureAwait(false);
            }
            finally
            {
                watched.End();
            }
        }

        private WatchedBody BeginWatched(GraphTask task, Task antecedent)
        {
            return new WatchedBody(this, task, antecedent, recorder.Begin(graph.DemandOwn(task).Id));
        }
    }
}
