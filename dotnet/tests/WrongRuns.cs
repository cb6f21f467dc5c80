using System;
using System.Threading.Tasks;
using static System.Threading.Tasks.TaskContinuationOptions;

namespace TaskGraph.Tests
{
    /// <summary>Runs whose audit has to say what is wrong with the declaration, or with how code is wrapped.</summary>
    internal static class WrongRuns
    {
        /// <summary>A job throws that isn't declared to.</summary>
        internal static void Undeclared(TaskGraphBuilder g)
        {
            Action fetch = () => throw new InvalidOperationException("no route to host");
            g.Run("Fetch", fetch);
            Audit(g.Start());
        }

        /// <summary>The same in code that is watched.</summary>
        internal static void UndeclaredInCode(TaskGraphBuilder g)
        {
            GraphTask fetch = g.Run("Fetch", () => { });
            GraphRun run = g.Watch();
            Action job = () => throw new InvalidOperationException("no route to host");
            run.Is(fetch, Task.Run(run.Body(fetch, it => it.Work(job))));
            Audit(run);
        }

        /// <summary>A wrapped body does its job by itself.</summary>
        internal static void WithoutWork(TaskGraphBuilder g)
        {
            GraphTask fetch = g.Run("Fetch", () => { });
            GraphRun run = g.Watch();
            run.Is(fetch, Task.Run(run.Body(fetch, it => { })));
            Audit(run);
        }

        /// <summary>Two bodies are handed to each other's tasks.</summary>
        internal static void Exchanged(TaskGraphBuilder g)
        {
            GraphTask one = g.Run("One", () => { });
            GraphTask other = g.Run("Other", () => { }, mayFail: true);
            GraphRun run = g.Watch();
            Action<WatchedBody> failing = it => it.Work((Action)(() => throw new InvalidOperationException()));
            run.Is(one, Task.Run(run.Body(other, failing)));
            run.Is(other, Task.Run(run.Body(one, it => it.Work(() => { }))));
            Audit(run);
        }

        /// <summary>The task whose body is wrapped is handed to nobody.</summary>
        internal static void HandedToNobody(TaskGraphBuilder g)
        {
            GraphTask fetch = g.Run("Fetch", () => { });
            GraphRun run = g.Watch();
            Task.Run(run.Body(fetch, it => it.Work(() => { }))).Wait();
            Audit(run);
        }

        /// <summary>A method makes its calls in another order than declared.</summary>
        internal static void OtherOrder(TaskGraphBuilder g)
        {
            g.Method("Import").Await("Load", Later).Await("Save", Later).AsTask();
            GraphRun run = g.Watch();
            Calling(run, g["Save"], g["Load"]).Wait();
            Audit(run);
        }

        /// <summary>A method doesn't make a call that is declared.</summary>
        internal static void WithoutCall(TaskGraphBuilder g)
        {
            g.Method("Import").Await("Load", Later).Await("Save", Later).AsTask();
            GraphRun run = g.Watch();
            Calling(run, g["Load"]).Wait();
            Audit(run);
        }

        /// <summary>A call is made twice, and declared once.</summary>
        internal static void CallTwice(TaskGraphBuilder g)
        {
            g.Method("Import").Await("Load", Later);
            GraphRun run = g.Watch();
            Calling(run, g["Load"], g["Load"]).GetAwaiter().GetResult();
        }

        /// <summary>A condition throws.</summary>
        internal static void ThrowingCondition(TaskGraphBuilder g)
        {
            GraphInput cached = g.Decides("cached", () => throw new InvalidOperationException("no cache"));
            g.Run("Answer", new Steps().If(cached, new Steps()));
            Audit(g.Start());
        }

        /// <summary>One condition is found to be true and false.</summary>
        internal static void TwoAnswers(TaskGraphBuilder g)
        {
            GraphInput cached = g.Decides("cached", () => true);
            GraphTask first = g.Run("First", new Steps().If(cached, new Steps()));
            GraphTask next = first.ContinueWith("Next", new Steps().If(cached, new Steps()), OnlyOnRanToCompletion);
            GraphRun run = g.Watch();
            Task real = run.Is(first, Task.Run(run.Body(first, it => { it.Decide(cached, true); })));
            Task second = run.Is(next, real.ContinueWith(run.Next(next, it => { it.Decide(cached, false); }), OnlyOnRanToCompletion));
            second.GetAwaiter().GetResult();
        }

        private static Task Later() => Task.Delay(1);

        private static async Task Calling(GraphRun run, params GraphTask[] calls)
        {
            foreach (GraphTask call in calls)
            {
                await run.Call(call, Later).ConfigureAwait(false);
            }
        }

        private static void Audit(GraphRun run)
        {
            run.Wait();
            run.Audit();
        }
    }
}
