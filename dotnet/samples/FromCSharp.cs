using System;
using System.Collections.Generic;
using System.Threading;
using System.Threading.Tasks;
using TaskGraph;
using static System.Threading.Tasks.TaskContinuationOptions;
using static System.Threading.Tasks.TaskStatus;

// what a snippet declares isn't always used
#pragma warning disable 219

namespace Sample
{
    /// <summary>The constructs of docs/FROM-CSHARP.md by the library, each by the number of its document on that page, from 0.</summary>
    public static class FromCSharp
    {
        public static readonly IReadOnlyDictionary<int, Action<TaskGraphBuilder>> All = new Dictionary<int, Action<TaskGraphBuilder>>
        {
            { 0, Run },
            { 1, RunWithToken },
            { 3, Check },
            { 4, CheckForeign },
            { 5, StartChild },
            { 6, Continue },
            { 7, OnlyOn },
            { 9, Lazy },
            { 10, Synchronous },
            { 12, ReadException },
            { 13, Join },
            { 14, LookAtWinner },
            { 15, Link },
            { 16, Cancel },
            { 18, Choose },
            { 19, Decide },
        };

        private static void Run(TaskGraphBuilder g)
        {
            var fetch = g.Run("Fetch", () => Fetch(), mayFail: true);
        }

        private static void RunWithToken(TaskGraphBuilder g)
        {
            var stop = g.Token("stop");
            var fetch = g.Run("Fetch", () => Fetch(), stop);
        }

        private static void Check(TaskGraphBuilder g)
        {
            var stop = g.Token("stop");
            var load = g.Run("Load", new Steps().Check(stop).Work("load", () => Load()), stop);
        }

        private static void CheckForeign(TaskGraphBuilder g)
        {
            var stop = g.Token("stop");
            var load = g.Run("Load", new Steps().Check(stop).Work("load", () => Load()));
        }

        private static void StartChild(TaskGraphBuilder g)
        {
            var steps = new Steps(); var import = g.StartNew("Import", steps);
            var users = g.Child("Users", () => ImportUsers(), TaskCreationOptions.AttachedToParent, mayFail: true);
            steps.Start(users).Work("index", () => BuildIndex());
            import.ContinueWith("Next", new Steps().Observe());
        }

        private static void Continue(TaskGraphBuilder g)
        {
            var fetch = g.StartNew("Fetch", () => Fetch(), mayFail: true);
            var next = fetch.ContinueWith("Next", t => Next());
        }

        private static void OnlyOn(TaskGraphBuilder g)
        {
            var fetch = g.StartNew("Fetch", () => Fetch(), mayFail: true);
            var ok = fetch.ContinueWith("Ok", _ => Ok(), OnlyOnRanToCompletion);
            var failed = fetch.ContinueWith("Failed", _ => Failed(), NotOnRanToCompletion);
        }

        private static void Lazy(TaskGraphBuilder g)
        {
            var stop = g.Token("stop");
            var serve = g.StartNew("Serve", () => Serve());
            var drain = serve.ContinueWith("Drain", _ => Drain(), LazyCancellation, stop);
            var close = drain.ContinueWith("Close", _ => Close());
        }

        private static void Synchronous(TaskGraphBuilder g)
        {
            var fetch = g.StartNew("Fetch", () => Fetch());
            var log = fetch.ContinueWith("Log", _ => Log(), ExecuteSynchronously);
        }

        private static void ReadException(TaskGraphBuilder g)
        {
            var fetch = g.StartNew("Fetch", () => Fetch(), mayFail: true);
            var stopped = new Steps().When(Canceled, new Steps().Throw("Stopped", () => new Stopped()));
            var logging = new Steps().When(Faulted, new Steps().Observe().Work("log", t => Log(t.Exception)), stopped);
            var log = fetch.ContinueWith("Log", logging);
        }

        private static void Join(TaskGraphBuilder g)
        {
            var a = g.StartNew("A", () => Fetch(), mayFail: true);
            var b = g.StartNew("B", () => Fetch(), mayFail: true);
            var all = g.WhenAll("All", a, b); var any = g.WhenAny("Any", a, b);
            all.ContinueWith("Next", new Steps().Observe());
        }

        private static void LookAtWinner(TaskGraphBuilder g)
        {
            var a = g.StartNew("A", () => Fetch(), mayFail: true);
            var b = g.StartNew("B", () => Fetch(), mayFail: true);
            var looking = new Steps().When(Faulted, new Steps().Observe().Throw("NoAnswer")).Work("use", t => Use(t));
            g.WhenAny("First", a, b).ContinueWith("Use", looking);
        }

        private static void Link(TaskGraphBuilder g)
        {
            var user = g.Token("user");
            var timeout = g.Token("timeout", new CancellationTokenSource(5000)); var both = g.Linked("both", user, timeout);
            var get = g.Run("Get", new Steps().Check(both).Work("get", both, token => Get(token)), both);
        }

        private static void Cancel(TaskGraphBuilder g)
        {
            var stop = g.Token("stop");
            var watch = g.Run("Watch", new Steps().Work("watch", () => Watch()).Cancel(stop));
            var worker = g.Run("Worker", new Steps().Check(stop).Work("step", () => Load()), stop);
        }

        private static void Choose(TaskGraphBuilder g)
        {
            var dryRun = g.Input("dry_run");
            g.Run("Switch", new Steps().If(dryRun, new Steps().Throw("DryRun")).Work("switch", () => Switch()));
        }

        private static void Decide(TaskGraphBuilder g)
        {
            var cached = g.Decides("cached", () => Has());
            var answer = g.Run("Answer", new Steps().If(cached, new Steps(), new Steps().Work("load", () => Load())));
        }

        // the team's code

        private sealed class Stopped : Exception
        {
        }

        private static void Fetch()
        {
        }

        private static void Load()
        {
        }

        private static void ImportUsers()
        {
        }

        private static void BuildIndex()
        {
        }

        private static void Next()
        {
        }

        private static void Ok()
        {
        }

        private static void Failed()
        {
        }

        private static void Serve()
        {
        }

        private static void Drain()
        {
        }

        private static void Close()
        {
        }

        private static void Log(AggregateException failed = null)
        {
        }

        private static void Use(Task winner)
        {
        }

        private static void Get(CancellationToken token)
        {
        }

        private static void Watch()
        {
        }

        private static void Switch()
        {
        }

        private static bool Has() => true;
    }
}
