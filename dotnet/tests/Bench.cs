using System;
using System.Collections.Generic;
using System.Diagnostics;
using System.IO;
using System.Linq;
using System.Runtime.InteropServices;
using System.Threading;
using System.Threading.Tasks;

namespace TaskGraph.Tests
{
    /// <summary>What a task of one empty job costs: by the library of .NET alone, declared, recorded, and with its journal.</summary>
    internal static class Bench
    {
        private const int Size = 256;
        private const int Warm = 20;
        private const int Rounds = 5;
        private const double NanosecondsInMillisecond = 1e6;
        private const double NanosecondsInSecond = 1e9;

        // CLOCK_PROCESS_CPUTIME_ID of Linux; TotalProcessorTime of Mono goes by hundredths of a second
        private const int ProcessorsClock = 2;

        private static readonly string[] Shapes = { "roots", "chain", "fan" };

        private enum Manner
        {
            Bare,
            Declared,
            Recorded,
            WithJournal,
        }

        [StructLayout(LayoutKind.Sequential)]
        private struct TimeSpec
        {
            internal long Seconds;
            internal long Nanoseconds;
        }

        internal static void Write(TextWriter to, int repeats)
        {
            foreach (string shape in Shapes)
            {
                foreach (Manner manner in Enum.GetValues(typeof(Manner)))
                {
                    Measure(shape, manner, Warm);
                    List<double[]> rounds = Enumerable.Range(0, Rounds).Select(_ => Measure(shape, manner, repeats)).ToList();
                    to.WriteLine("{0}\t{1}\t{2:0}\t{3:0}", shape, manner, rounds.Min(it => it[0]), rounds.Min(it => it[1]));
                }
            }
        }

        /// <summary>Nanoseconds a task, of the wall clock and of all processors.</summary>
        private static double[] Measure(string shape, Manner manner, int repeats)
        {
            List<Action> runs = Enumerable.Range(0, repeats).Select(_ => Prepare(shape, manner)).ToList();
            GC.Collect();
            double used = ProcessorTime();
            Stopwatch clock = Stopwatch.StartNew();
            runs.ForEach(it => it());
            double wall = clock.Elapsed.TotalMilliseconds * NanosecondsInMillisecond;
            double processors = ProcessorTime() - used;
            double tasks = repeats * (double)Size;
            return new[] { wall / tasks, processors / tasks };
        }

        /// <summary>What all processors together have spent on this process, in nanoseconds.</summary>
        private static double ProcessorTime()
        {
            TimeSpec now;
            if (GetTime(ProcessorsClock, out now) != 0)
            {
                throw new InvalidOperationException("the clock of the processors can't be read");
            }
            return (now.Seconds * NanosecondsInSecond) + now.Nanoseconds;
        }

        [DllImport("libc", EntryPoint = "clock_gettime")]
        private static extern int GetTime(int clock, out TimeSpec time);

        private static Action Prepare(string shape, Manner manner)
        {
            if (manner == Manner.Bare)
            {
                return () => WaitFor(Bare(shape));
            }
            TaskGraphBuilder graph = Declared(shape);
            var options = new RunOptions { Record = manner != Manner.Declared, StartLast = false };
            return () =>
            {
                GraphRun run = graph.Start(options);
                WaitFor(graph.AllTasks.Select(it => run[it]).ToArray());
                GC.KeepAlive(manner == Manner.WithJournal ? run.Journal : "");
            };
        }

        private static void WaitFor(Task[] tasks)
        {
            foreach (Task task in tasks.Reverse().Where(it => !it.IsCompleted))
            {
                Task.WaitAny(task);
            }
        }

        private static Task[] Bare(string shape)
        {
            var tasks = new Task[Size];
            for (int place = 0; place < Size; place++)
            {
                bool isRoot = place == 0 || shape == "roots" || (shape == "fan" && place < Size - 2);
                if (isRoot)
                {
                    tasks[place] = Task.Factory.StartNew(Nothing, CancellationToken.None, TaskCreationOptions.None, TaskScheduler.Default);
                }
                else if (shape == "fan" && place == Size - 2)
                {
                    tasks[place] = Task.WhenAll(tasks.Take(place));
                }
                else
                {
                    tasks[place] = tasks[place - 1].ContinueWith(
                        _ => Nothing(), CancellationToken.None, TaskContinuationOptions.None, TaskScheduler.Default);
                }
            }
            return tasks;
        }

        private static TaskGraphBuilder Declared(string shape)
        {
            var g = new TaskGraphBuilder();
            GraphTask before = null;
            for (int place = 0; place < Size; place++)
            {
                string name = "T" + place;
                bool isRoot = place == 0 || shape == "roots" || (shape == "fan" && place < Size - 2);
                if (isRoot)
                {
                    before = g.StartNew(name, Nothing);
                }
                else if (shape == "fan" && place == Size - 2)
                {
                    before = g.WhenAll(name, g.AllTasks.ToArray());
                }
                else
                {
                    before = before.ContinueWith(name, _ => Nothing());
                }
            }
            g.ToJson();
            return g;
        }

        private static void Nothing()
        {
        }
    }
}
