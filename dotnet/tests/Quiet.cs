using System;
using System.IO;
using System.Runtime.CompilerServices;
using System.Threading;
using System.Threading.Tasks;

namespace TaskGraph.Tests
{
    /// <summary>Counts how often UnobservedTaskException is raised by runs in which a job throws, with a record and without one, and
    /// by the same tasks without this library.</summary>
    internal static class Quiet
    {
        private const int Runs = 30;
        private const int Depth = 20;
        private const int Rounds = 8;
        private const int LongestRun = 5000;

        private static int raised;

        internal static void Write(TextWriter to)
        {
            TaskScheduler.UnobservedTaskException += (_, it) =>
            {
                Interlocked.Increment(ref raised);
                it.SetObserved();
            };
            foreach (bool isRead in new[] { true, false })
            {
                to.WriteLine((isRead ? "read" : "not read") + ", without the library\t" + Count(() => RunPlain(isRead)));
                foreach (bool isAwaited in new[] { false, true })
                {
                    foreach (bool isRecorded in new[] { false, true })
                    {
                        string which = (isRead ? "read" : "not read") + (isAwaited ? ", awaited" : ", not awaited");
                        bool record = isRecorded;
                        string how = record ? ", recorded" : ", not recorded";
                        to.WriteLine(which + how + "\t" + Count(() => RunGraph(isRead, isAwaited, record)));
                    }
                }
            }
            to.WriteLine("attached root inside a task\t" + (WaitsForRoot() ? "waits" : "does not wait"));
        }

        /// <summary>Does this so many times, deep on threads of their own, so that no stack keeps what was made.</summary>
        private static int Count(Action once)
        {
            raised = 0;
            for (int run = 0; run < Runs; run++)
            {
                var thread = new Thread(() => Deep(Depth, once));
                thread.Start();
                thread.Join();
            }
            for (int round = 0; round < Rounds; round++)
            {
                GC.Collect();
                GC.WaitForPendingFinalizers();
                Thread.Sleep(10);
            }
            return raised;
        }

        [MethodImpl(MethodImplOptions.NoInlining)]
        private static void Deep(int depth, Action once)
        {
            if (depth == 0)
            {
                once();
            }
            else
            {
                Deep(depth - 1, once);
            }
        }

        [MethodImpl(MethodImplOptions.NoInlining)]
        private static void RunPlain(bool isRead)
        {
            Task task = Task.Run(() => { throw new IOException(); });
            Task last = isRead ? task.ContinueWith(it => GC.KeepAlive(it.Exception)) : task;
            Task.WaitAny(last);
        }

        [MethodImpl(MethodImplOptions.NoInlining)]
        private static void RunGraph(bool isRead, bool isAwaited, bool isRecorded)
        {
            var g = new TaskGraphBuilder();
            var failing = isAwaited ? new Steps().Work("fail", FailLater, mayFail: true) : new Steps().Work("fail", Fail, mayFail: true);
            var task = g.Run("Fail", failing);
            if (isRead)
            {
                task.ContinueWith("Read", new Steps().Observe());
            }
            GraphRun run = g.Start(new RunOptions { Record = isRecorded });
            run.Wait(LongestRun);
            GC.KeepAlive(isRecorded ? run.Journal : "");
        }

        private static void Fail()
        {
            throw new IOException();
        }

        private static async Task FailLater()
        {
            await Task.Yield();
            throw new IOException();
        }

        /// <summary>Whether a task in which a graph is started waits for a root with AttachedToParent.</summary>
        private static bool WaitsForRoot()
        {
            var release = new ManualResetEventSlim();
            Task outer = Task.Factory.StartNew(() =>
            {
                var g = new TaskGraphBuilder();
                g.StartNew("Root", () => release.Wait(), TaskCreationOptions.AttachedToParent);
                g.Start();
            });
            bool isDone = outer.Wait(500);
            release.Set();
            return !isDone;
        }
    }
}
