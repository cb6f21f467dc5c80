using System;
using System.Collections.Generic;
using System.Diagnostics.CodeAnalysis;
using System.Linq;
using System.Runtime.CompilerServices;
using System.Threading;
using System.Threading.Tasks;
using TaskGraph.Internals;

namespace TaskGraph
{
    /// <summary>Declares a graph of tasks nearly as it is written today: gives its document, runs it, and records the run.</summary>
    /// <remarks>A graph runs at most once; build it again for another run, the document is the same.</remarks>
    public sealed class TaskGraphBuilder
    {
        internal List<GraphTask> Tasks { get; } = new List<GraphTask>();
        internal List<GraphToken> Tokens { get; } = new List<GraphToken>();
        internal List<GraphInput> Inputs { get; } = new List<GraphInput>();
        private readonly Dictionary<string, GraphTask> byName = new Dictionary<string, GraphTask>();
        private readonly List<MethodBlock> methods = new List<MethodBlock>();
        private bool isComplete;

        /// <summary>Makes a graph without tasks.</summary>
        public TaskGraphBuilder()
        {
            Claims = new Claims(this);
        }

        /// <summary>What has to hold in every run.</summary>
        public Claims Claims { get; }

        /// <summary>Something that a claim takes as given, to be said by its calls: <c>g.Given.Quiet(stop).NoFailure()</c>. Another one each
        /// time.</summary>
        public Given Given => new Given(this);

        /// <summary>The note that stands at the top of the document, for readers alone; null for none.</summary>
        [MaybeNull]
        public string Note { get; private set; }

        /// <summary>The tokens, in declared order.</summary>
        public IReadOnlyList<GraphToken> AllTokens => Tokens;

        /// <summary>The inputs, in declared order.</summary>
        public IReadOnlyList<GraphInput> AllInputs => Inputs;

        /// <summary>The tasks, in declared order.</summary>
        public IReadOnlyList<GraphTask> AllTasks => Tasks;

        /// <summary>The run that was started; null before.</summary>
        internal GraphRun StartedRun { get; private set; }

        /// <summary>The task of this name.</summary>
        /// <exception cref="KeyNotFoundException">There is none.</exception>
        public GraphTask this[string name]
        {
            get
            {
                GraphTask found;
                if (!byName.TryGetValue(name, out found))
                {
                    string there = "no task " + name + "; there are " + string.Join(", ", Tasks.Select(it => it.Name));
                    bool isMethod = methods.Any(it => it.Name == name);
                    throw new KeyNotFoundException(isMethod ? there + "; call AsTask of the method " + name + " to make its task" : there);
                }
                return found;
            }
        }

        /// <summary>Gives the graph a note.</summary>
        /// <returns>The graph.</returns>
        /// <exception cref="InvalidOperationException">The graph is complete: its document was made, or it was started.</exception>
        public TaskGraphBuilder WithNote(string note)
        {
            DemandOpen("the note of the graph");
            Note = note;
            return this;
        }

        /// <summary>Declares a value that is fixed before the run.</summary>
        /// <exception cref="ArgumentException">It is no name, or that of another input.</exception>
        public GraphInput Input(string name, bool value = false) => Add(new GraphInput(Name.Checked(name), value));

        /// <summary>Declares a condition on what the run itself finds, as <c>if (cache.Has(key))</c>. For <see cref="Steps.If"/>. The document
        /// has it as an input, so that a claim speaks of both answers unless one is given; the run notes the answer.</summary>
        /// <param name="name">The name of the input.</param>
        /// <param name="condition">Is asked once in a run, where a body first reads it. It throws nothing: what may throw is a job.</param>
        /// <exception cref="ArgumentException">It is no name, or that of another input.</exception>
        public GraphInput Decides(string name, Func<bool> condition)
        {
            return Add(new GraphInput(Name.Checked(name), false, NotNull(condition, nameof(condition))));
        }

        /// <summary>Declares a token with a source of its own: new CancellationTokenSource().</summary>
        /// <exception cref="ArgumentException">The name is none, or the name or the source is that of another token of the
        /// graph.</exception>
        public GraphToken Token(string name) => Token(name, new CancellationTokenSource());

        /// <summary>Declares the token of a source that the caller has.</summary>
        /// <exception cref="ArgumentException">The name is none, or the name or the source is that of another token of the
        /// graph.</exception>
        public GraphToken Token(string name, CancellationTokenSource source)
        {
            return AddToken(name, source, source.Token, new GraphToken[0]);
        }

        /// <summary>Declares a token whose source is elsewhere: RequestAborted, ApplicationStopping.</summary>
        /// <exception cref="ArgumentException">The name is none, or the name or the source is that of another token of the
        /// graph.</exception>
        public GraphToken Token(string name, CancellationToken token) => AddToken(name, null, token, new GraphToken[0]);

        /// <summary>Declares a token that is linked to others: CancellationTokenSource.CreateLinkedTokenSource.</summary>
        /// <exception cref="ArgumentException">The name is none, or the name or the source is that of another token of the
        /// graph.</exception>
        public GraphToken Linked(string name, params GraphToken[] sources)
        {
            if (sources.Length == 0)
            {
                throw new ArgumentException("a linked token has a source; without one, use Token(name)");
            }
            foreach (GraphToken token in sources)
            {
                DemandOwn(NotNull(token, nameof(sources)));
            }
            var source = CancellationTokenSource.CreateLinkedTokenSource(sources.Select(it => it.CancellationToken).ToArray());
            return AddToken(name, source, source.Token, sources);
        }

        /// <summary>Starts a task: Task.Run, on the default scheduler and with DenyChildAttach.</summary>
        /// <param name="name">The name of the task, which is that of its job too.</param>
        /// <param name="job">The job: code that touches no task and no token of the graph.</param>
        /// <param name="token">The task's own token; none if left out.</param>
        /// <param name="mayFail">Whether the job may throw.</param>
        /// <param name="file">The file that declares it; the compiler gives it.</param>
        /// <param name="line">The line; the compiler gives it.</param>
        /// <exception cref="ArgumentException">The name is none or taken, the options can't be together, or a task or token is of another
        /// graph.</exception>
        /// <exception cref="InvalidOperationException">The graph is complete: its document was made, or it was started.</exception>
        public GraphTask Run(
            string name, Action job, GraphToken token = null, bool mayFail = false,
            [CallerFilePath] string file = null, [CallerLineNumber] int line = 0)
        {
            return Run(name, new Steps().Work(name, job, mayFail), token, file, line);
        }

        /// <summary>Starts a task whose job is awaited: Task.Run(async ..).</summary>
        /// <exception cref="ArgumentException">The name is none or taken, the options can't be together, or a task or token is of another
        /// graph.</exception>
        /// <exception cref="InvalidOperationException">The graph is complete: its document was made, or it was started.</exception>
        public GraphTask Run(
            string name, Func<Task> job, GraphToken token = null, bool mayFail = false,
            [CallerFilePath] string file = null, [CallerLineNumber] int line = 0)
        {
            return Run(name, new Steps().Work(name, job, mayFail), token, file, line);
        }

        /// <summary>Starts a task with a body of several steps: Task.Run.</summary>
        /// <exception cref="ArgumentException">The name is none or taken, the options can't be together, or a task or token is of another
        /// graph.</exception>
        /// <exception cref="InvalidOperationException">The graph is complete: its document was made, or it was started.</exception>
        public GraphTask Run(
            string name, Steps body, GraphToken token = null,
            [CallerFilePath] string file = null, [CallerLineNumber] int line = 0)
        {
            return StartNew(name, body, TaskCreationOptions.DenyChildAttach, token, file, line);
        }

        /// <summary>Starts a task: Task.Factory.StartNew on the default scheduler.</summary>
        /// <exception cref="ArgumentException">The name is none or taken, the options can't be together, or a task or token is of another
        /// graph.</exception>
        /// <exception cref="InvalidOperationException">The graph is complete: its document was made, or it was started.</exception>
        public GraphTask StartNew(
            string name, Action job, TaskCreationOptions options = TaskCreationOptions.None, GraphToken token = null,
            bool mayFail = false,
            [CallerFilePath] string file = null, [CallerLineNumber] int line = 0)
        {
            return StartNew(name, new Steps().Work(name, job, mayFail), options, token, file, line);
        }

        /// <summary>Starts a task whose job is awaited: Task.Factory.StartNew(async ..).Unwrap() on the default scheduler.</summary>
        /// <exception cref="ArgumentException">The name is none or taken, the options can't be together, or a task or token is of another
        /// graph.</exception>
        /// <exception cref="InvalidOperationException">The graph is complete: its document was made, or it was started.</exception>
        public GraphTask StartNew(
            string name, Func<Task> job, TaskCreationOptions options = TaskCreationOptions.None, GraphToken token = null,
            bool mayFail = false,
            [CallerFilePath] string file = null, [CallerLineNumber] int line = 0)
        {
            return StartNew(name, new Steps().Work(name, job, mayFail), options, token, file, line);
        }

        /// <summary>Starts a task with a body of several steps: Task.Factory.StartNew on the default scheduler.</summary>
        /// <exception cref="ArgumentException">The name is none or taken, the options can't be together, or a task or token is of another
        /// graph.</exception>
        /// <exception cref="InvalidOperationException">The graph is complete: its document was made, or it was started.</exception>
        public GraphTask StartNew(
            string name, Steps body, TaskCreationOptions options = TaskCreationOptions.None, GraphToken token = null,
            [CallerFilePath] string file = null, [CallerLineNumber] int line = 0)
        {
            return Add(new GraphTask
            {
                Name = name, Kind = TaskKind.Root, Body = body, Options = (TaskContinuationOptions)options, Token = token,
                Origin = SourceLine.Of(file, line),
            });
        }

        /// <summary>Declares a task that a body starts, by <see cref="Steps.Start"/>. It stands behind its parent, so the parent's
        /// steps are made first and the start is added to them afterwards.</summary>
        /// <exception cref="ArgumentException">The name is none or taken, the options can't be together, or a task or token is of another
        /// graph.</exception>
        /// <exception cref="InvalidOperationException">The graph is complete: its document was made, or it was started.</exception>
        public GraphTask Child(
            string name, Action job, TaskCreationOptions options = TaskCreationOptions.None, GraphToken token = null,
            bool mayFail = false,
            [CallerFilePath] string file = null, [CallerLineNumber] int line = 0)
        {
            return Child(name, new Steps().Work(name, job, mayFail), options, token, file, line);
        }

        /// <summary>Declares a task whose job is awaited, and which a body starts by <see cref="Steps.Start"/>.</summary>
        /// <exception cref="ArgumentException">The name is none or taken, the options can't be together, or a task or token is of another
        /// graph.</exception>
        /// <exception cref="InvalidOperationException">The graph is complete: its document was made, or it was started.</exception>
        public GraphTask Child(
            string name, Func<Task> job, TaskCreationOptions options = TaskCreationOptions.None, GraphToken token = null,
            bool mayFail = false,
            [CallerFilePath] string file = null, [CallerLineNumber] int line = 0)
        {
            return Child(name, new Steps().Work(name, job, mayFail), options, token, file, line);
        }

        /// <summary>Declares a task with a body of several steps that a body starts, by <see cref="Steps.Start"/>.</summary>
        /// <exception cref="ArgumentException">The name is none or taken, the options can't be together, or a task or token is of another
        /// graph.</exception>
        /// <exception cref="InvalidOperationException">The graph is complete: its document was made, or it was started.</exception>
        public GraphTask Child(
            string name, Steps body, TaskCreationOptions options = TaskCreationOptions.None, GraphToken token = null,
            [CallerFilePath] string file = null, [CallerLineNumber] int line = 0)
        {
            return Add(new GraphTask
            {
                Name = name, Kind = TaskKind.Child, Body = body, Options = (TaskContinuationOptions)options, Token = token,
                Origin = SourceLine.Of(file, line),
            });
        }

        /// <summary>Waits for all of these tasks: Task.WhenAll.</summary>
        /// <exception cref="ArgumentException">The name is none or taken, the options can't be together, or a task or token is of another
        /// graph.</exception>
        /// <exception cref="InvalidOperationException">The graph is complete: its document was made, or it was started.</exception>
        public GraphTask WhenAll(string name, params GraphTask[] tasks)
        {
            return Add(new GraphTask { Name = name, Kind = TaskKind.All, Of = Copied(tasks) });
        }

        /// <summary>Waits for one of these tasks: Task.WhenAny.</summary>
        /// <exception cref="ArgumentException">The name is none or taken, the options can't be together, or a task or token is of another
        /// graph.</exception>
        /// <exception cref="InvalidOperationException">The graph is complete: its document was made, or it was started.</exception>
        public GraphTask WhenAny(string name, params GraphTask[] tasks)
        {
            if (NotNull(tasks, nameof(tasks)).Length == 0)
            {
                throw new ArgumentException("Task.WhenAny refuses an empty list; give WhenAny a task at least");
            }
            return Add(new GraphTask { Name = name, Kind = TaskKind.Any, Of = Copied(tasks) });
        }

        /// <summary>Declares a method as it is written today, by awaits, try, catch and finally.</summary>
        /// <param name="name">The name of the method's task.</param>
        /// <exception cref="ArgumentException">It is no name.</exception>
        public MethodBlock Method(string name)
        {
            var method = new MethodBlock(this, Name.Checked(name), null);
            methods.Add(method);
            return method;
        }

        /// <summary>The document: the graph and its claims.</summary>
        /// <exception cref="ArgumentException">A child isn't started, or is started twice; a site stands twice; an awaited body checks
        /// another token than its task's own; or a body looks at an antecedent where there is none.</exception>
        /// <exception cref="InvalidOperationException">A name, a note or a given stands before no claim; or a method is empty, or ends in a
        /// Try alone.</exception>
        public string ToJson()
        {
            Complete();
            return new GraphDocument(this).Write();
        }

        /// <summary>Demands that each claim holds in every run, and that none is empty: a test that needs nothing kept.
        /// Calls the program: see <see cref="TaskGraphProgram"/>.</summary>
        /// <param name="depth">The most splits on a path of a certificate, 0 to 6.</param>
        /// <param name="runs">How many random runs are tried for each claim, at most 1,000,000.</param>
        /// <param name="limit">How long it may take; ten minutes, if left out.</param>
        /// <param name="token">Ends the search.</param>
        /// <exception cref="TaskGraphException">A claim fails, is empty, or is unknown; there is no claim; or the document can't be read. With
        /// the verdict on each claim in the program's words: those of a claim that fails have a run in which it does, with the line of C# beside
        /// each event.</exception>
        /// <exception cref="TimeoutException">The time was up before the answer was there.</exception>
        /// <exception cref="OperationCanceledException">The token was requested before the answer was there.</exception>
        public void Verify(
            int depth = 6, int runs = 100000, TimeSpan? limit = null, CancellationToken token = default(CancellationToken))
        {
            TaskGraphProgram.Demand(TaskGraphProgram.Verify(this, depth, runs, new CallLimit(limit, token)));
        }

        /// <summary>Asks for the verdict on each claim, for a test of each or a report. Calls the program: see
        /// <see cref="TaskGraphProgram"/>.</summary>
        /// <param name="depth">The most splits on a path of a certificate, 0 to 6.</param>
        /// <param name="runs">How many random runs are tried for each claim, at most 1,000,000.</param>
        /// <param name="limit">How long it may take; ten minutes, if left out.</param>
        /// <param name="token">Ends the search.</param>
        /// <returns>The verdicts, in the order of the claims.</returns>
        /// <exception cref="TaskGraphException">The document can't be read: with the program's words.</exception>
        /// <exception cref="TimeoutException">The time was up before the answer was there.</exception>
        /// <exception cref="OperationCanceledException">The token was requested before the answer was there.</exception>
        public IReadOnlyList<ClaimVerdict> Verdicts(
            int depth = 6, int runs = 100000, TimeSpan? limit = null, CancellationToken token = default(CancellationToken))
        {
            return ClaimVerdict.AllOf(TaskGraphProgram.Verify(this, depth, runs, new CallLimit(limit, token)).Output, Claims.NameOf);
        }

        /// <summary>Searches for a certificate of the claims, as deeply as <see cref="Verify"/>, has it checked, and gives the document with
        /// it, to be kept beside the code. Calls the program: see <see cref="TaskGraphProgram"/>.</summary>
        /// <param name="depth">The most splits on a path, 0 to 6.</param>
        /// <param name="limit">How long it may take; ten minutes, if left out.</param>
        /// <param name="token">Ends the search.</param>
        /// <exception cref="TaskGraphException">There is none, or the document can't be read: with the program's words, and with a run in
        /// which a claim fails, where a short search finds one.</exception>
        /// <exception cref="TimeoutException">The time was up before the answer was there.</exception>
        /// <exception cref="OperationCanceledException">The token was requested before the answer was there.</exception>
        public string Certify(int depth = 6, TimeSpan? limit = null, CancellationToken token = default(CancellationToken))
        {
            return TaskGraphProgram.Certify(this, depth, new CallLimit(limit, token));
        }

        /// <summary>Has the certificate of a stored document checked for this graph and its claims, which takes milliseconds where
        /// <see cref="Certify"/> may search for long. Calls the program: see <see cref="TaskGraphProgram"/>.</summary>
        /// <param name="certified">What <see cref="Certify"/> gave earlier.</param>
        /// <param name="limit">How long it may take; ten minutes, if left out.</param>
        /// <param name="token">Ends the call.</param>
        /// <exception cref="ArgumentException">The document has no certificate.</exception>
        /// <exception cref="TaskGraphException">It doesn't show the claims of this graph, which may have changed since: with the program's
        /// words.</exception>
        /// <exception cref="TimeoutException">The time was up before the answer was there.</exception>
        /// <exception cref="OperationCanceledException">The token was requested before the answer was there.</exception>
        public void Check(string certified, TimeSpan? limit = null, CancellationToken token = default(CancellationToken))
        {
            Complete();
            TaskGraphProgram.Check(new GraphDocument(this).WriteWith(Certificate.Of(certified)), new CallLimit(limit, token));
        }

        /// <summary>Starts the tasks on the default scheduler and records the run.</summary>
        /// <param name="options">How to run; the defaults if left out.</param>
        /// <exception cref="InvalidOperationException">The graph ran already; build it again.</exception>
        public GraphRun Start(RunOptions options = null)
        {
            GraphRun run = NewRun(options, isOfCode: false);
            if (Task.CurrentId == null)
            {
                run.Begin();
                return run;
            }
            BeginElsewhere(run);
            return run;
        }

        /// <summary>Begins to watch code that stays as it is: it makes its tasks by its own calls, hands each to
        /// <see cref="GraphRun.Is{T}"/>, and its bodies are wrapped by <see cref="GraphRun.Body(GraphTask, Action{WatchedBody})"/>
        /// and <see cref="GraphRun.Next(GraphTask, Action{WatchedBody})"/>. A method that is written with await makes each of its calls by
        /// <see cref="GraphRun.Call(GraphTask, Func{Task})"/>.</summary>
        /// <exception cref="InvalidOperationException">The graph ran already; build it again.</exception>
        public GraphRun Watch() => NewRun(null, isOfCode: true);

        /// <summary>The document with what was recorded of a run.</summary>
        internal string ToJson(RunAccount run)
        {
            Complete();
            return new GraphDocument(this).WriteWith(run);
        }

        /// <exception cref="ArgumentException">The task is of another graph.</exception>
        internal GraphTask DemandOwn(GraphTask task)
        {
            if (NotNull(task, nameof(task)).Graph != this)
            {
                throw OfOther("task", task.Name, "take that of this graph by its name, as g[\"" + task.Name + "\"]");
            }
            return task;
        }

        /// <exception cref="ArgumentException">The token, if there is one, is of another graph.</exception>
        internal GraphToken DemandOwn(GraphToken token)
        {
            if (token != null && !Tokens.Contains(token))
            {
                throw OfOther("token", token.Name, "declare one of this graph by Token or Linked");
            }
            return token;
        }

        /// <exception cref="ArgumentException">The input, if there is one, is of another graph.</exception>
        internal GraphInput DemandOwn(GraphInput input)
        {
            if (input != null && !Inputs.Contains(input))
            {
                throw OfOther("input", input.Name, "declare one of this graph by Input");
            }
            return input;
        }

        private GraphInput Add(GraphInput input)
        {
            if (Inputs.Any(it => it.Name == input.Name))
            {
                throw new ArgumentException("two inputs are named " + input.Name + "; use the GraphInput that was made first");
            }
            Inputs.Add(input);
            return input;
        }

        internal GraphTask Add(GraphTask task)
        {
            DemandOpen(task.Name);
            foreach (GraphTask awaited in GraphRules.AwaitedBy(task))
            {
                DemandOwn(awaited);
            }
            DemandOwn(task.Token);
            GraphRules.CheckNew(task);
            if (byName.ContainsKey(task.Name))
            {
                throw new ArgumentException("two tasks are named " + task.Name + "; give one another name");
            }
            task.Graph = this;
            task.Id = Tasks.Count;
            foreach (GraphTask awaited in GraphRules.AwaitedBy(task).Distinct())
            {
                awaited.Followers.Add(task);
            }
            Tasks.Add(task);
            byName.Add(task.Name, task);
            return task;
        }

        /// <exception cref="InvalidOperationException">The graph is complete, so that this can't be declared any more.</exception>
        internal void DemandOpen(string what)
        {
            if (isComplete)
            {
                throw new InvalidOperationException(
                    "the graph is complete, since its document was made or it was started; declare " + what + " before that");
            }
        }

        /// <summary>A name like this one that no task has: itself, or with a number behind it.</summary>
        internal string FreeName(string name)
        {
            string free = name;
            for (int number = 2; byName.ContainsKey(free); number++)
            {
                free = name + number;
            }
            return free;
        }

        private static ArgumentException OfOther(string what, string name, string instead)
        {
            return new ArgumentException("the " + what + " " + name + " is of another graph; " + instead);
        }

        private static T NotNull<T>(T given, string name)
            where T : class
        {
            if (given == null)
            {
                throw new ArgumentNullException(name);
            }
            return given;
        }

        /// <summary>The same tasks, whatever the caller does with the array.</summary>
        private static GraphTask[] Copied(GraphTask[] tasks) => (GraphTask[])NotNull(tasks, nameof(tasks)).Clone();

        private GraphToken AddToken(string name, CancellationTokenSource source, CancellationToken token, GraphToken[] sources)
        {
            Name.Checked(name);
            GraphToken same = Tokens.FirstOrDefault(it => it.Name == name || (token.CanBeCanceled && it.CancellationToken == token));
            if (same != null)
            {
                throw new ArgumentException(
                    "there is the token " + same.Name + " with this name or this source; use the GraphToken that stands");
            }
            var added = new GraphToken(Tokens.Count, name, source, token, sources);
            Tokens.Add(added);
            return added;
        }

        private void Complete()
        {
            Claims.Check();
            if (!isComplete)
            {
                methods.ForEach(it => it.Check());
                GraphRules.Complete(Tasks);
                isComplete = true;
            }
        }

        private GraphRun NewRun(RunOptions options, bool isOfCode)
        {
            if (StartedRun != null)
            {
                throw new InvalidOperationException("the graph ran already; build it again for another run");
            }
            Complete();
            GraphRules.CheckFailing(Tasks, options?.FailingSites ?? new string[0]);
            options?.Prepare?.Invoke(this);
            Inputs.ForEach(it => it.Fix());
            StartedRun = new GraphRun(this, options ?? new RunOptions(), isOfCode);
            return StartedRun;
        }

        /// <summary>Begins the run on a thread of its own, so that no root attaches to the task that is running here.</summary>
        private static void BeginElsewhere(GraphRun run)
        {
            Exception wrong = null;
            var thread = new Thread(() =>
            {
                try
                {
                    run.Begin();
                }
                catch (Exception it)
                {
                    wrong = it;
                }
            });
            thread.Start();
            thread.Join();
            if (wrong != null)
            {
                throw new InvalidOperationException("the graph can't be started: " + wrong.Message, wrong);
            }
        }
    }
}
