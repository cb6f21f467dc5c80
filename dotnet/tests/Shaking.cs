using System;
using System.Collections.Generic;
using System.IO;
using System.Linq;

namespace TaskGraph.Tests
{
    /// <summary>Of the claims that are refuted, how many fail first in a few real runs that are shaken.</summary>
    internal static class Shaking
    {
        private const int LongestRun = 5000;
        private const int Runs = 60;
        private const string None = "none";

        /// <summary>Writes each claim that is refuted, and the number of the first run in which it fails first.</summary>
        internal static void Write(TextWriter to)
        {
            foreach (KeyValuePair<string, Func<TaskGraphBuilder>> it in Refuted.All)
            {
                int[] refuted = it.Value().Verdicts().Where(verdict => verdict.Verdict == Verdict.Fails).Select(verdict => verdict.Claim).ToArray();
                Dictionary<int, int> first = refuted.Length == 0 ? new Dictionary<int, int>() : FirstFailures(it.Value, refuted);
                foreach (int claim in refuted)
                {
                    to.WriteLine(it.Key + "\t" + claim + "\t" + (first.ContainsKey(claim) ? first[claim].ToString() : None));
                }
            }
        }

        /// <summary>Writes each claim that is refuted, and the document of a real run that is led the way of its verdict.</summary>
        internal static void WriteLed(TextWriter to)
        {
            foreach (KeyValuePair<string, Func<TaskGraphBuilder>> it in Refuted.All)
            {
                foreach (ClaimVerdict verdict in it.Value().Verdicts().Where(verdict => verdict.Verdict == Verdict.Fails))
                {
                    GraphRun run = it.Value().Start(RunOptions.Toward(verdict));
                    run.Wait(LongestRun);
                    to.WriteLine(it.Key + "\t" + verdict.Claim + "\t" + run.ToJson().Replace("\n", ""));
                }
            }
        }

        private static Dictionary<int, int> FirstFailures(Func<TaskGraphBuilder> build, int[] refuted)
        {
            var first = new Dictionary<int, int>();
            for (int seed = 0; seed < Runs && first.Count < refuted.Length; seed++)
            {
                int claim = FirstFailure(build(), RunOptions.Shaken(seed));
                if (claim > 0 && !first.ContainsKey(claim))
                {
                    first[claim] = seed;
                }
            }
            return first;
        }

        /// <summary>The claim that fails first in a run; 0 for none.</summary>
        private static int FirstFailure(TaskGraphBuilder graph, RunOptions options)
        {
            GraphRun run = graph.Start(options);
            run.Wait(LongestRun);
            ProgramAnswer answer = TaskGraphProgram.Call("audit", run.ToJson());
            string[] words = answer.Output.Split('\n', ' ');
            int at = Array.IndexOf(words, "claim");
            return at < 0 ? 0 : int.Parse(words[at + 1]);
        }
    }
}
