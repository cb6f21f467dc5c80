using System;
using System.Collections.Generic;
using System.IO;
using System.Linq;
using System.Threading;
using System.Threading.Tasks;
using Sample;

namespace TaskGraph.Tests
{
    /// <summary>Methods that are written with await, beside their declarations: for each choice of failing jobs both call the same jobs
    /// in the same order and end in the same way, with the same exception.</summary>
    internal static class Methods
    {
        private const int LongestRun = 5000;
        private const string NoJob = "none";

        private sealed class Pair
        {
            internal Func<Orders, CancellationToken, Task> Written;
            internal Func<Orders, TaskGraphBuilder, GraphToken, MethodBlock> Declared;
            internal string[] MayFail;
            internal string[] Stopping = { NoJob };
        }

        private static readonly IReadOnlyDictionary<string, Pair> All = new Dictionary<string, Pair>
        {
            { "Import", Of((it, _) => it.Import(), (it, g, _) => it.DeclareImport(g), "Load", "Save") },
            { "Handle", Of((it, _) => it.Handle(), (it, g, _) => it.DeclareHandle(g), "Load", "Save") },
            { "Reply", Of((it, _) => it.Reply(), (it, g, _) => it.DeclareReply(g), "Load", "Send") },
            { "Update", Of((it, _) => it.Update(), (it, g, _) => it.DeclareUpdate(g), "Load", "Save", "Undo", "Send") },
            { "Show", Of((it, _) => it.Show(), (it, g, _) => it.DeclareShow(g), "Users", "Prices", "Send") },
            { "Copy", Of((it, _) => it.Copy(), (it, g, _) => it.DeclareCopy(g), "Open", "Load", "Send") },
            { "Deliver", Of((it, _) => it.Deliver(), (it, g, _) => it.DeclareDeliver(g), "Send1", "Send2", "Send3", "Save") },
            { "Pay", Of((it, _) => it.Pay(), (it, g, _) => it.DeclarePay(g), "Load", "Send1", "Send2", "Save", "Undo") },
            {
                "Fetch",
                new Pair
                {
                    Written = (it, stop) => it.Fetch(stop), Declared = (it, g, stop) => it.DeclareFetch(g, stop),
                    MayFail = new[] { "Get", "Save" }, Stopping = new[] { NoJob, "Get", "Close" },
                }
            },
        };

        internal static void Write(TextWriter to)
        {
            foreach (KeyValuePair<string, Pair> it in All)
            {
                foreach (string stopping in it.Value.Stopping)
                {
                    foreach (string[] failing in Subsets(it.Value.MayFail))
                    {
                        WriteBoth(to, it.Key, it.Value, failing, stopping);
                    }
                }
            }
        }

        /// <summary>Runs each method as it stands, with its calls watched against its declaration. The method with a token is left out: its
        /// check of the token lies behind the job that is watched here.</summary>
        internal static void WriteWatched(TextWriter to)
        {
            foreach (KeyValuePair<string, Pair> it in All.Where(it => it.Value.Stopping.Length == 1))
            {
                foreach (string[] failing in Subsets(it.Value.MayFail))
                {
                    var g = new TaskGraphBuilder();
                    it.Value.Declared(new CalledOrders(failing, null, null), g, null).AsTask();
                    var orders = new WatchedOrders(failing, g);
                    bool hasEnded = Task.WaitAny(new[] { it.Value.Written(orders, CancellationToken.None) }, LongestRun) == 0;
                    RunLine.Write(to, it.Key + " failing " + string.Join(" ", failing), orders.Run, hasEnded && orders.Run.Wait(LongestRun));
                }
            }
        }

        private static Pair Of(
            Func<Orders, CancellationToken, Task> written, Func<Orders, TaskGraphBuilder, GraphToken, MethodBlock> declared,
            params string[] mayFail)
        {
            return new Pair { Written = written, Declared = declared, MayFail = mayFail };
        }

        private static IEnumerable<string[]> Subsets(string[] of)
        {
            return Enumerable.Range(0, 1 << of.Length).Select(bits => of.Where((_, place) => (bits & (1 << place)) != 0).ToArray());
        }

        private static void WriteBoth(TextWriter to, string name, Pair pair, string[] failing, string stopping)
        {
            string written = OfWritten(pair, failing, stopping);
            GraphRun run;
            string declared = OfDeclared(pair, failing, stopping, out run);
            string which = string.Join(" ", new[] { name, "failing" }.Concat(failing).Concat(new[] { "stopping", stopping }));
            to.WriteLine(which + "\t" + written + "\t" + declared);
            RunLine.Write(to, which, run, declared != "no end");
        }

        private static string OfWritten(Pair pair, string[] failing, string stopping)
        {
            using (var stop = new CancellationTokenSource())
            {
                var orders = new CalledOrders(failing, stopping, stop);
                Task task = pair.Written(orders, stop.Token);
                return Task.WaitAny(new[] { task }, LongestRun) < 0 ? "no end" : Told(task, orders);
            }
        }

        private static string OfDeclared(Pair pair, string[] failing, string stopping, out GraphRun run)
        {
            using (var stop = new CancellationTokenSource())
            {
                var orders = new CalledOrders(failing, stopping, stop);
                var g = new TaskGraphBuilder();
                GraphTask method = pair.Declared(orders, g, g.Token("stop", stop)).AsTask();
                run = g.Start();
                return run.Wait(LongestRun) ? Told(run[method], orders) : "no end";
            }
        }

        private static string Told(Task task, CalledOrders orders)
        {
            Exception thrown = task.Exception == null ? null : task.Exception.InnerException;
            return orders.Calls + ": " + task.Status + (thrown == null ? "" : " by " + thrown.Message);
        }
    }
}
