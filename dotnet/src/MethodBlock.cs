using System;
using System.Collections.Generic;
using System.Linq;
using System.Runtime.CompilerServices;
using System.Threading;
using System.Threading.Tasks;
using TaskGraph.Internals;

namespace TaskGraph
{
    /// <summary>The statements of a method that is written with await, or of a block in it, as tasks of a graph.</summary>
    /// <remarks>An await is a task that continues the one before it, OnlyOnRanToCompletion. What a try holds is joined by a WhenAll;
    /// its catch continues that, OnlyOnFaulted; its finally follows both. Where more follows a try, further tasks say whether it is
    /// reached; their names are Rethrow, NotCanceled, Left, Entered and Finished.</remarks>
    public sealed class MethodBlock
    {
        private const int FewestAttempts = 2;

        private readonly TaskGraphBuilder graph;
        private readonly string name;

        // the tasks whose WhenAll ends as the block does: RanToCompletion where its end is reached
        private readonly List<GraphTask> parts = new List<GraphTask>();

        // what is reached where it ran to completion; null at the first statement of a method
        private GraphTask reached;
        private bool hasToken;
        private MethodTry open;
        private GraphTask whole;

        internal MethodBlock(TaskGraphBuilder graph, string name, GraphTask entered)
        {
            this.graph = graph;
            this.name = name;
            reached = entered;
        }

        /// <summary>The method's task: a WhenAll over its tasks, which runs to completion where the method returns, is Faulted where an
        /// exception leaves it, and Canceled where a cancellation does. It is made at the first call, as the method's end.</summary>
        /// <exception cref="InvalidOperationException">The method is empty, or ends in a Try without Catch and Finally.</exception>
        public GraphTask AsTask()
        {
            if (whole == null)
            {
                whole = graph.WhenAll(name, Parts());
            }
            return whole;
        }

        /// <summary>Awaits a call: <c>await Load();</c></summary>
        /// <param name="name">The name of the call's task, which is that of its job too.</param>
        /// <param name="call">The call, which touches no task and no token of the graph.</param>
        /// <param name="mayFail">Whether the call may throw.</param>
        /// <param name="file">The file that declares it; the compiler gives it.</param>
        /// <param name="line">The line; the compiler gives it.</param>
        /// <exception cref="ArgumentException">The name is none or taken, the options can't be together, or a task or token is of another
        /// graph.</exception>
        /// <exception cref="InvalidOperationException">The task of the method is made, or a Try without Catch and Finally stands before
        /// it.</exception>
        public MethodBlock Await(
            string name, Func<Task> call, bool mayFail = false,
            [CallerFilePath] string file = null, [CallerLineNumber] int line = 0)
        {
            return Await(name, new Steps().Work(name, call, mayFail), null, file, line);
        }

        /// <summary>Makes a call that isn't awaited: <c>Close();</c></summary>
        /// <exception cref="ArgumentException">The name is none or taken, the options can't be together, or a task or token is of another
        /// graph.</exception>
        /// <exception cref="InvalidOperationException">The task of the method is made, or a Try without Catch and Finally stands before
        /// it.</exception>
        public MethodBlock Await(
            string name, Action call, bool mayFail = false,
            [CallerFilePath] string file = null, [CallerLineNumber] int line = 0)
        {
            return Await(name, new Steps().Work(name, call, mayFail), null, file, line);
        }

        /// <summary>Awaits a call that may stop by a token: <c>await Load(stop);</c></summary>
        /// <exception cref="ArgumentException">The name is none or taken, the options can't be together, or a task or token is of another
        /// graph.</exception>
        /// <exception cref="InvalidOperationException">The task of the method is made, or a Try without Catch and Finally stands before
        /// it.</exception>
        public MethodBlock Await(
            string name, GraphToken token, Func<CancellationToken, Task> call, bool mayFail = false,
            [CallerFilePath] string file = null, [CallerLineNumber] int line = 0)
        {
            return Await(name, new Steps().Work(name, token, call, mayFail), token, file, line);
        }

        /// <summary>Awaits a task of several steps.</summary>
        /// <param name="name">The name of the task.</param>
        /// <param name="body">Its steps.</param>
        /// <param name="token">Its own token; none if left out.</param>
        /// <param name="file">The file that declares it; the compiler gives it.</param>
        /// <param name="line">The line; the compiler gives it.</param>
        /// <exception cref="ArgumentException">The name is none or taken, the options can't be together, or a task or token is of another
        /// graph.</exception>
        /// <exception cref="InvalidOperationException">The task of the method is made, or a Try without Catch and Finally stands before
        /// it.</exception>
        public MethodBlock Await(
            string name, Steps body, GraphToken token = null,
            [CallerFilePath] string file = null, [CallerLineNumber] int line = 0)
        {
            Settle();
            reached = AddCall(name, body, token, SourceLine.Of(file, line));
            parts.Add(reached);
            return this;
        }

        /// <summary>Awaits several calls together: <c>await Task.WhenAll(Users(), Orders());</c></summary>
        /// <param name="name">The name of the WhenAll task.</param>
        /// <param name="calls">Makes the calls.</param>
        /// <param name="file">The file that declares it; the compiler gives it.</param>
        /// <param name="line">The line; the compiler gives it.</param>
        /// <exception cref="ArgumentException">The name is none or taken, the options can't be together, or a task or token is of another
        /// graph.</exception>
        /// <exception cref="InvalidOperationException">The task of the method is made, or a Try without Catch and Finally stands before
        /// it.</exception>
        public MethodBlock AwaitAll(
            string name, Action<MethodCalls> calls,
            [CallerFilePath] string file = null, [CallerLineNumber] int line = 0)
        {
            Settle();
            var made = new MethodCalls(AddCall);
            calls(made);
            reached = graph.WhenAll(name, made.Tasks.ToArray()).AsPart(SourceLine.Of(file, line));
            parts.Add(reached);
            return this;
        }

        /// <summary>A try block, which <see cref="Catch(string, Action{Exception}, bool, string, int)"/> or
        /// <see cref="Finally(string, Action, bool, string, int)"/> follows.</summary>
        /// <param name="block">Its statements.</param>
        /// <param name="name">The name of the WhenAll task over the block; Try, with a number where it is taken, if left out.</param>
        /// <param name="file">The file that declares it; the compiler gives it.</param>
        /// <param name="line">The line; the compiler gives it.</param>
        /// <exception cref="InvalidOperationException">The block is empty, or the task of the method is made.</exception>
        public MethodBlock Try(
            Action<MethodBlock> block, string name = "Try",
            [CallerFilePath] string file = null, [CallerLineNumber] int line = 0)
        {
            Settle();
            var inner = new MethodBlock(graph, name, reached);
            block(inner);
            GraphTask tried = graph.WhenAll(graph.FreeName(name), inner.Parts()).AsPart(SourceLine.Of(file, line));
            hasToken |= inner.hasToken;
            open = new MethodTry(graph, tried, reached, inner.hasToken);
            return this;
        }

        /// <summary>Catches what the try block throws: <c>catch (Exception e) { Log(e); }</c>. A cancellation isn't caught, as in
        /// <c>catch (Exception e) when (!(e is OperationCanceledException))</c>.</summary>
        /// <param name="name">The name of the handler's task, which is that of its job too.</param>
        /// <param name="handler">What is done with the exception that an await would throw.</param>
        /// <param name="mayFail">Whether the handler may throw.</param>
        /// <param name="file">The file that declares it; the compiler gives it.</param>
        /// <param name="line">The line; the compiler gives it.</param>
        /// <exception cref="ArgumentException">The name is none or taken, the options can't be together, or a task or token is of another
        /// graph.</exception>
        /// <exception cref="InvalidOperationException">No Try stands before it, or one that has it already.</exception>
        public MethodBlock Catch(
            string name, Action<Exception> handler, bool mayFail = false,
            [CallerFilePath] string file = null, [CallerLineNumber] int line = 0)
        {
            return Catch(name, Handling(name, handler, mayFail), file, line);
        }

        /// <summary>Catches what the try block throws, by an awaited handler: <c>catch (Exception e) { await Log(e); }</c></summary>
        /// <exception cref="ArgumentException">The name is none or taken, the options can't be together, or a task or token is of another
        /// graph.</exception>
        /// <exception cref="InvalidOperationException">No Try stands before it, or one that has it already.</exception>
        public MethodBlock Catch(
            string name, Func<Exception, Task> handler, bool mayFail = false,
            [CallerFilePath] string file = null, [CallerLineNumber] int line = 0)
        {
            return Catch(name, Handling(name, handler, mayFail), file, line);
        }

        /// <summary>Catches what the try block throws, by a handler of several steps. That the exception is read stands before
        /// them.</summary>
        /// <exception cref="ArgumentException">The name is none or taken, the options can't be together, or a task or token is of another
        /// graph.</exception>
        /// <exception cref="InvalidOperationException">No Try stands before it, or one that has it already.</exception>
        public MethodBlock Catch(string name, Steps handler, [CallerFilePath] string file = null, [CallerLineNumber] int line = 0)
        {
            OpenTry("Catch").Catch(name, handler, false, SourceLine.Of(file, line));
            return this;
        }

        /// <summary>Catches what the try block throws, and throws it again: <c>catch (Exception e) { Log(e); throw; }</c></summary>
        /// <exception cref="ArgumentException">The name is none or taken, the options can't be together, or a task or token is of another
        /// graph.</exception>
        /// <exception cref="InvalidOperationException">No Try stands before it, or one that has it already.</exception>
        public MethodBlock CatchAndRethrow(
            string name, Action<Exception> handler, bool mayFail = false,
            [CallerFilePath] string file = null, [CallerLineNumber] int line = 0)
        {
            return CatchAndRethrow(name, Handling(name, handler, mayFail), file, line);
        }

        /// <summary>Catches what the try block throws, by an awaited handler, and throws it again.</summary>
        /// <exception cref="ArgumentException">The name is none or taken, the options can't be together, or a task or token is of another
        /// graph.</exception>
        /// <exception cref="InvalidOperationException">No Try stands before it, or one that has it already.</exception>
        public MethodBlock CatchAndRethrow(
            string name, Func<Exception, Task> handler, bool mayFail = false,
            [CallerFilePath] string file = null, [CallerLineNumber] int line = 0)
        {
            return CatchAndRethrow(name, Handling(name, handler, mayFail), file, line);
        }

        /// <summary>Catches what the try block throws, by a handler of several steps, and throws it again.</summary>
        /// <exception cref="ArgumentException">The name is none or taken, the options can't be together, or a task or token is of another
        /// graph.</exception>
        /// <exception cref="InvalidOperationException">No Try stands before it, or one that has it already.</exception>
        public MethodBlock CatchAndRethrow(
            string name, Steps handler,
            [CallerFilePath] string file = null, [CallerLineNumber] int line = 0)
        {
            OpenTry("CatchAndRethrow").Catch(name, handler, true, SourceLine.Of(file, line));
            return this;
        }

        /// <summary>Is done whatever the try block and the catch did, if the try was reached: <c>finally { Close(); }</c></summary>
        /// <exception cref="ArgumentException">The name is none or taken, the options can't be together, or a task or token is of another
        /// graph.</exception>
        /// <exception cref="InvalidOperationException">No Try stands before it, or one that has it already.</exception>
        public MethodBlock Finally(
            string name, Action action, bool mayFail = false,
            [CallerFilePath] string file = null, [CallerLineNumber] int line = 0)
        {
            return Finally(name, new Steps().Work(name, action, mayFail), file, line);
        }

        /// <summary>Is awaited whatever the try block and the catch did, if the try was reached:
        /// <c>finally { await Close(); }</c></summary>
        /// <exception cref="ArgumentException">The name is none or taken, the options can't be together, or a task or token is of another
        /// graph.</exception>
        /// <exception cref="InvalidOperationException">No Try stands before it, or one that has it already.</exception>
        public MethodBlock Finally(
            string name, Func<Task> action, bool mayFail = false,
            [CallerFilePath] string file = null, [CallerLineNumber] int line = 0)
        {
            return Finally(name, new Steps().Work(name, action, mayFail), file, line);
        }

        /// <summary>A finally of several steps.</summary>
        /// <exception cref="ArgumentException">The name is none or taken, the options can't be together, or a task or token is of another
        /// graph.</exception>
        /// <exception cref="InvalidOperationException">No Try stands before it, or one that has it already.</exception>
        public MethodBlock Finally(string name, Steps body, [CallerFilePath] string file = null, [CallerLineNumber] int line = 0)
        {
            OpenTry("Finally").Finally(name, body, SourceLine.Of(file, line));
            return this;
        }

        /// <summary>Opens something, uses it and disposes of it: <c>await using (var x = await Open()) { .. }</c></summary>
        /// <param name="openName">The name of the task that opens it.</param>
        /// <param name="opening">Opens it; where it throws nothing is disposed of.</param>
        /// <param name="disposeName">The name of the task that disposes of it.</param>
        /// <param name="disposing">Disposes of it: <c>() => x.DisposeAsync().AsTask()</c>.</param>
        /// <param name="block">The statements that use it.</param>
        /// <param name="mayFail">Whether opening may throw.</param>
        /// <param name="file">The file that declares it; the compiler gives it.</param>
        /// <param name="line">The line; the compiler gives it.</param>
        /// <exception cref="ArgumentException">The name is none or taken, the options can't be together, or a task or token is of another
        /// graph.</exception>
        /// <exception cref="InvalidOperationException">The task of the method is made, or a Try without Catch and Finally stands before
        /// it.</exception>
        public MethodBlock AwaitUsing(
            string openName, Func<Task> opening, string disposeName, Func<Task> disposing, Action<MethodBlock> block,
            bool mayFail = false,
            [CallerFilePath] string file = null, [CallerLineNumber] int line = 0)
        {
            return Await(openName, opening, mayFail, file, line)
                .Try(block, "Using", file, line)
                .Finally(disposeName, disposing, false, file, line);
        }

        /// <summary>Awaits a call that may fail, and where it throws awaits it again, so many times at most:
        /// <c>for (int i = 1; ; i++) try { await Send(i); break; } catch (Exception) when (i &lt; attempts) { }</c></summary>
        /// <param name="name">The name of the call; the tasks have the number of the attempt behind it.</param>
        /// <param name="attempts">How many times at most, 2 or more.</param>
        /// <param name="call">The call, given the number of the attempt, from 1. A delay between attempts belongs into it.</param>
        /// <param name="file">The file that declares it; the compiler gives it.</param>
        /// <param name="line">The line; the compiler gives it.</param>
        /// <exception cref="ArgumentOutOfRangeException">There are less than two attempts.</exception>
        public MethodBlock Retry(
            string name, int attempts, Func<int, Task> call,
            [CallerFilePath] string file = null, [CallerLineNumber] int line = 0)
        {
            if (attempts < FewestAttempts)
            {
                throw new ArgumentOutOfRangeException(nameof(attempts), "a retry has 2 attempts at least; for one, use Await");
            }
            Settle();
            string origin = SourceLine.Of(file, line);
            GraphTask first = AddCall(name + 1, new Steps().Work(name + 1, () => call(1), mayFail: true), null, origin);
            GraphTask last = first;
            for (int attempt = FewestAttempts; attempt <= attempts; attempt++)
            {
                last = AddAttempt(last, name + attempt, attempt, call, origin);
            }
            var ends = MethodTry.Handled(graph, first, last, reached != null);
            reached = MethodTry.Join(graph, ends);
            parts.AddRange(ends);
            return this;
        }

        internal string Name => name;

        /// <exception cref="InvalidOperationException">It is empty, or ends in a Try without Catch and Finally.</exception>
        internal void Check()
        {
            if (open != null)
            {
                open.Check();
                return;
            }
            DemandStatement();
        }

        /// <summary>The tasks whose WhenAll ends as the block does.</summary>
        private GraphTask[] Parts()
        {
            Settle();
            DemandStatement();
            return parts.ToArray();
        }

        private void DemandStatement()
        {
            if (parts.Count == 0)
            {
                throw new InvalidOperationException("a method, and a try block, has a statement at least: add an Await");
            }
        }

        /// <summary>Closes a try that more follows.</summary>
        private void Settle()
        {
            if (whole != null)
            {
                throw new InvalidOperationException("the task of the method " + name + " is made; add statements before AsTask is called");
            }
            if (open == null)
            {
                return;
            }
            GraphTask[] ends = open.Close();
            open = null;
            reached = MethodTry.Join(graph, ends);
            parts.AddRange(ends);
        }

        private MethodTry OpenTry(string call)
        {
            if (open == null)
            {
                throw new InvalidOperationException(
                    call + " stands right behind Try, or behind its Catch; write .Try(it => it.Await(..))." + call
                    + "(..), and what follows behind that");
            }
            return open;
        }

        private GraphTask AddCall(string callName, Steps body, GraphToken token, string origin)
        {
            hasToken |= token != null;
            GraphTask call = reached == null ? graph.Run(callName, body, token) : AddNext(callName, body, token);
            return call.AsPart(origin);
        }

        private GraphTask AddNext(string callName, Steps body, GraphToken token)
        {
            // the token is handed to the call: it doesn't cancel the await before the call's turn has come
            TaskContinuationOptions lazy = token == null ? TaskContinuationOptions.None : TaskContinuationOptions.LazyCancellation;
            return reached.ContinueWith(callName, body, TaskContinuationOptions.OnlyOnRanToCompletion | lazy, token);
        }

        private static GraphTask AddAttempt(GraphTask before, string name, int attempt, Func<int, Task> call, string origin)
        {
            Steps body = new Steps().Observe().Work(name, () => call(attempt), mayFail: true);
            return before.ContinueWith(name, body, TaskContinuationOptions.OnlyOnFaulted).AsPart(origin);
        }

        private static Steps Handling(string site, Action<Exception> handler, bool mayFail)
        {
            return new Steps().Work(site, it => handler(it.Exception.InnerException), mayFail);
        }

        private static Steps Handling(string site, Func<Exception, Task> handler, bool mayFail)
        {
            return new Steps().Work(site, it => handler(it.Exception.InnerException), mayFail);
        }
    }
}
