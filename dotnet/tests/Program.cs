using System;
using System.Collections.Generic;
using System.IO;
using System.Linq;
using System.Threading;
using Sample;

namespace TaskGraph.Tests
{
    /// <summary>What the script dotnet/test_library.py runs.</summary>
    internal static class Program
    {
        private const int LongestRun = 20000;
        private static readonly int[] LeastThreads = { 1, 2, 4, 8, 16 };

        private static int Main(string[] words)
        {
            using (var to = new StreamWriter(Console.OpenStandardOutput()))
            {
                switch (words[0])
                {
                    case "documents": WriteDocuments(to); break;
                    case "examples": RunExamples(to, int.Parse(words[1]), int.Parse(words[2]), words.ElementAtOrDefault(3)); break;
                    case "drawn": RunDrawn(to, int.Parse(words[1]), int.Parse(words[2])); break;
                    case "deviations": Deviations.Write(to); break;
                    case "methods": Methods.Write(to); break;
                    case "watched-methods": Methods.WriteWatched(to); break;
                    case "drawn-methods": DrawnMethod.Write(to, int.Parse(words[1]), int.Parse(words[2])); break;
                    case "watched-drawn": DrawnMethod.WriteWatched(to, int.Parse(words[1]), int.Parse(words[2])); break;
                    case "refusals": Refusals.Write(to); break;
                    case "bench": Bench.Write(to, int.Parse(words[1])); break;
                    case "first-answer": Facts.WriteFirstAnswer(to); break;
                    case "facts": Facts.Write(to); break;
                    case "quiet": Quiet.Write(to); break;
                    case "times": Times.Write(to); break;
                    case "members": Members.Write(to); break;
                    case "shaken": Shaking.Write(to); break;
                    case "led": Shaking.WriteLed(to); break;
                    case "call": Calls.Write(to, words[1], long.Parse(words[2]), int.Parse(words[3])); break;
                    default: throw new ArgumentException("no such test: " + words[0]);
                }
            }
            return 0;
        }

        private static void WriteDocuments(TextWriter to)
        {
            foreach (KeyValuePair<string, Func<TaskGraphBuilder>> it in Examples.All)
            {
                to.WriteLine(it.Key + "\t" + it.Value().ToJson().Replace("\n", ""));
            }
            to.WriteLine("version3\t" + Version3.Declare().ToJson().Replace("\n", ""));
            to.WriteLine("many claims\t" + Version3.DeclareMany().ToJson().Replace("\n", ""));
            foreach (KeyValuePair<int, Action<TaskGraphBuilder>> it in FromCSharp.All)
            {
                var graph = new TaskGraphBuilder();
                it.Value(graph);
                to.WriteLine("from-csharp " + it.Key + "\t" + graph.ToJson().Replace("\n", ""));
            }
        }

        /// <summary>Runs each example so many times, or only the one of a name.</summary>
        private static void RunExamples(TextWriter to, int runs, int seed, string only)
        {
            foreach (KeyValuePair<string, Func<TaskGraphBuilder>> it in Examples.All.Where(it => only == null || only == it.Key))
            {
                for (int run = 0; run < runs; run++)
                {
                    UseThreads(run);
                    RunShaken(to, it.Key, it.Value(), new Random(seed + run), seed + run);
                }
            }
        }

        private static void RunShaken(TextWriter to, string name, TaskGraphBuilder graph, Random chance, int seed)
        {
            foreach (GraphInput input in graph.AllInputs)
            {
                input.Value = chance.Next(4) == 0;
            }
            var options = RunOptions.Shaken(seed, new[] { 0, 0.15, 0.4 }[chance.Next(3)]);
            bool isRequested = graph.AllTokens.Count > 0 && chance.Next(3) > 0;
            GraphToken[] one = isRequested ? new[] { graph.AllTokens[chance.Next(graph.AllTokens.Count)] } : new GraphToken[0];
            Outside outside = Outside.Request(one, chance);
            GraphRun run = graph.Start(options);
            bool hasEnded = run.Wait(LongestRun);
            outside.Join();
            RunLine.Write(to, name, run, hasEnded);
        }

        private static void RunDrawn(TextWriter to, int runs, int seed)
        {
            string line;
            for (int number = 0; (line = Console.In.ReadLine()) != null; number++)
            {
                for (int run = 0; run < runs; run++)
                {
                    UseThreads(number + run);
                    RunDrawnOnce(to, line, number, new Random((seed * 1000) + (number * runs) + run));
                }
            }
        }

        private static void RunDrawnOnce(TextWriter to, string line, int number, Random chance)
        {
            DrawnGraph drawn = DrawnGraph.Build(line, chance);
            var begins = new Beginnings(drawn.Graph);
            RunOptions options = RunOptions.Shaken(chance.Next());
            Action<GraphTask> delay = options.Delay;
            options.Delay = task =>
            {
                begins.See(task);
                delay(task);
            };
            options.Fail = drawn.Failing.Contains;
            bool isLate = chance.Next(3) > 0;
            if (!isLate)
            {
                drawn.Requests.ToList().ForEach(it => it.Source.Cancel());
            }
            Outside outside = Outside.Request(isLate ? drawn.Requests : new GraphToken[0], chance);
            GraphRun run = drawn.Graph.Start(options);
            bool hasEnded = run.Wait(LongestRun);
            outside.Join();
            RunLine.Write(to, number.ToString(), run, hasEnded, begins);
        }

        private static void UseThreads(int turn)
        {
            int workers;
            int completion;
            ThreadPool.GetMinThreads(out workers, out completion);
            ThreadPool.SetMinThreads(LeastThreads[turn % LeastThreads.Length], completion);
        }
    }
}
