using System;
using System.Collections.Generic;
using System.IO;
using System.Threading;
using System.Threading.Tasks;
using static System.Threading.Tasks.TaskContinuationOptions;
using static System.Threading.Tasks.TaskStatus;

namespace TaskGraph.Tests
{
    /// <summary>Programs that aren't what their declaration says, and what the audit says of a run of each.</summary>
    internal static class Deviations
    {
        private const int LongestRun = 5000;

        private static readonly IReadOnlyDictionary<string, Func<GraphRun>> All = new Dictionary<string, Func<GraphRun>>
        {
            { "undeclared", Undeclared },
            { "canceled-job", CanceledJob },
            { "timeout", TimedOut },
            { "attached-inside", AttachedInside },
            { "callback", ThrowingCallback },
            { "excluded-winner", ExcludedWinner },
            { "late-link", LateLink },
            { "other-antecedent", OtherAntecedent },
            { "other-options", OtherOptions },
            { "detached-inside", DetachedInside },
            { "declared-stop", DeclaredStop },
        };

        /// <summary>Writes for each program its name, the answer, and the document of the run.</summary>
        internal static void Write(TextWriter to)
        {
            foreach (KeyValuePair<string, Func<GraphRun>> it in All)
            {
                GraphRun run = it.Value();
                to.WriteLine(it.Key + "\t" + Answer(run) + "\t" + run.ToJson().Replace("\n", ""));
            }
        }

        /// <summary>The first line of what the audit says.</summary>
        private static string Answer(GraphRun run)
        {
            if (!run.Wait(LongestRun))
            {
                return "it doesn't end";
            }
            try
            {
                run.Audit();
                return "accepted";
            }
            catch (TaskGraphException wrong)
            {
                return wrong.Message.Split('\n')[0];
            }
        }

        private static GraphRun Undeclared()
        {
            var g = new TaskGraphBuilder();
            g.Run("Fetch", () => { throw new IOException(); }).ContinueWith("Save", _ => { }, OnlyOnRanToCompletion);
            return g.Start();
        }

        private static GraphRun CanceledJob()
        {
            var g = new TaskGraphBuilder();
            var stop = g.Token("stop");
            g.Run("Get", new Steps().Work("get", () => StopAndThrow(stop), mayFail: true), stop);
            return g.Start();
        }

        private static GraphRun DeclaredStop()
        {
            var g = new TaskGraphBuilder();
            var stop = g.Token("stop");
            g.Run("Get", new Steps().Work("get", stop, _ => StopAndThrow(stop), mayFail: true), stop);
            return g.Start();
        }

        private static void StopAndThrow(GraphToken stop)
        {
            stop.Source.Cancel();
            stop.CancellationToken.ThrowIfCancellationRequested();
        }

        private static GraphRun TimedOut()
        {
            var g = new TaskGraphBuilder();
            g.Run("Get", (Func<Task>)GetTooSlowly, mayFail: true);
            return g.Start();
        }

        private static async Task GetTooSlowly()
        {
            await Task.Delay(1);
            throw new TaskCanceledException("as HttpClient throws where its time is over");
        }

        private static GraphRun AttachedInside()
        {
            var g = new TaskGraphBuilder();
            g.StartNew("Import", () => { Task.Factory.StartNew(Fail, TaskCreationOptions.AttachedToParent); });
            return g.Start();
        }

        private static void Fail()
        {
            throw new IOException();
        }

        private static GraphRun ThrowingCallback()
        {
            var g = new TaskGraphBuilder();
            var stop = g.Token("stop");
            stop.CancellationToken.Register(Fail);
            g.Run("Stop", new Steps().Cancel(stop));
            return g.Start();
        }

        private static GraphRun ExcludedWinner()
        {
            var g = new TaskGraphBuilder();
            var a = g.Run("A", () => { });
            var b = a.ContinueWith("B", _ => { }, OnlyOnFaulted);
            var using_ = new Steps().When(Canceled, new Steps().Throw("NoAnswer"), new Steps().Work("use", () => { }));
            g.WhenAny("First", a, b).ContinueWith("Use", using_);
            return g.Start();
        }

        private static GraphRun LateLink()
        {
            var g = new TaskGraphBuilder();
            var source = g.Token("source");
            var link = g.Linked("link", source);
            var hasBegun = new ManualResetEventSlim();
            var isRequested = new ManualResetEventSlim();
            var slow = g.Run("Slow", () => { hasBegun.Set(); isRequested.Wait(); });
            var next = slow.ContinueWith("Next", _ => { }, None, source);
            next.ContinueWith("Check", new Steps().Check(link).Work("check", () => { }), ExecuteSynchronously);
            GraphRun run = g.Start();
            hasBegun.Wait();
            source.Source.Cancel();
            isRequested.Set();
            return run;
        }

        private static GraphRun OtherAntecedent()
        {
            var g = new TaskGraphBuilder();
            var smoke = g.Run("Smoke", () => { }, mayFail: true);
            var sw = smoke.ContinueWith("Switch", _ => { }, OnlyOnRanToCompletion);
            var release = g.WhenAll("Release", smoke, sw);
            var rollback = release.ContinueWith("Rollback", _ => { }, OnlyOnFaulted);
            GraphRun run = g.Watch();
            var realSmoke = run.Is(smoke, Task.Run(run.Body(smoke, it => it.Work(Fail))));
            var realSwitch = run.Is(sw, realSmoke.ContinueWith(run.Next(sw, it => it.Work(() => { })), OnlyOnRanToCompletion));
            run.Is(release, Task.WhenAll(realSmoke, realSwitch));
            run.Is(rollback, realSwitch.ContinueWith(run.Next(rollback, it => it.Work(() => { })), OnlyOnFaulted));
            return run;
        }

        private static GraphRun OtherOptions()
        {
            var g = new TaskGraphBuilder();
            var load = g.Run("Load", () => { }, mayFail: true);
            var save = load.ContinueWith("Save", _ => { }, OnlyOnRanToCompletion);
            GraphRun run = g.Watch();
            var realLoad = run.Is(load, Task.Run(run.Body(load, it => it.Work(Fail))));
            run.Is(save, realLoad.ContinueWith(run.Next(save, it => it.Work(() => { }))));
            return run;
        }

        private static GraphRun DetachedInside()
        {
            var g = new TaskGraphBuilder();
            g.Run("Import", () => { Task.Factory.StartNew(Fail, TaskCreationOptions.AttachedToParent); }).ContinueWith("Next", _ => { });
            return g.Start();
        }
    }
}
