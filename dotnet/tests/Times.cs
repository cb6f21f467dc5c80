using System;
using System.Collections.Generic;
using System.Diagnostics;
using System.IO;
using System.Linq;
using System.Threading;
using System.Threading.Tasks;
using TaskGraph.Internals;

namespace TaskGraph.Tests
{
    /// <summary>A run of a chain of three jobs, each of which reads the clock at its first and at its last instruction.</summary>
    internal sealed class Times
    {
        private const double MicrosecondsInSecond = 1e6;
        private const int LongestRun = 20000;

        private static readonly string[] Jobs = { "Fetch", "Convert", "Store" };

        private readonly Dictionary<string, long> begins = new Dictionary<string, long>();
        private readonly Dictionary<string, long> ends = new Dictionary<string, long>();

        /// <summary>Writes the document of a run, and for each job, in microseconds, the latest time at which the body can have begun and
        /// the earliest at which it can have been left; and the latest time of the whole run. The run's own clock starts between two
        /// readings of this one.</summary>
        internal static void Write(TextWriter to)
        {
            // a first run has all compiled, so that the two readings are close
            new Times().Graph().Start().Wait(LongestRun);
            var times = new Times();
            TaskGraphBuilder graph = times.Graph();
            long before = Stopwatch.GetTimestamp();
            GraphRun run = graph.Start();
            long after = Stopwatch.GetTimestamp();
            bool hasEnded = run.Wait(LongestRun);
            string whole = Microseconds(Stopwatch.GetTimestamp() - before);
            IEnumerable<string> bodies = Jobs.Select(
                it => Json.List(new[] { Json.Text(it), Microseconds(times.begins[it] - before), Microseconds(times.ends[it] - after) }));
            to.WriteLine(Json.Object(
                Json.Member("ended", Json.Bool(hasEnded)), Json.Member("bodies", Json.List(bodies)), Json.Member("whole", whole),
                Json.Member("document", run.ToJson().Replace("\n", ""))));
        }

        private static string Microseconds(long ticks)
        {
            return ((long)Math.Floor(ticks * MicrosecondsInSecond / Stopwatch.Frequency)).ToString();
        }

        private TaskGraphBuilder Graph()
        {
            var g = new TaskGraphBuilder();
            GraphTask fetch = g.Run("Fetch", () => Sleep("Fetch", 20));
            GraphTask convert = fetch.ContinueWith("Convert", _ => SleepLater("Convert", 60));
            convert.ContinueWith("Store", _ => Sleep("Store", 5));
            return g;
        }

        private void Sleep(string job, int milliseconds)
        {
            begins[job] = Stopwatch.GetTimestamp();
            Thread.Sleep(milliseconds);
            ends[job] = Stopwatch.GetTimestamp();
        }

        private async Task SleepLater(string job, int milliseconds)
        {
            begins[job] = Stopwatch.GetTimestamp();
            await Task.Delay(milliseconds).ConfigureAwait(false);
            ends[job] = Stopwatch.GetTimestamp();
        }
    }
}
