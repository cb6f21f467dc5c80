using System;
using System.Diagnostics.CodeAnalysis;
using System.Linq;
using TaskGraph.Internals;

namespace TaskGraph
{
    /// <summary>How a graph is run.</summary>
    public sealed class RunOptions
    {
        /// <summary>The sites whose jobs fail, where they are named; empty otherwise.</summary>
        internal string[] FailingSites { get; private set; } = new string[0];

        /// <summary>Makes options with their defaults.</summary>
        public RunOptions()
        {
            Record = true;
            StartLast = true;
        }

        /// <summary>Whether a journal is kept; true if left out.</summary>
        public bool Record { get; set; }

        /// <summary>Whether the roots are started once all tasks are wired; true if left out, which is how documents are meant.
        /// False starts each root where it is declared, as a method does that calls Task.Run and ContinueWith.</summary>
        public bool StartLast { get; set; }

        /// <summary>Called wherever waiting may change the order of events: as a body begins, before each of its steps, and as it
        /// ends; by several bodies at a time. For tests; none if left out.</summary>
        [MaybeNull]
        public Action<GraphTask> Delay { get; set; }

        /// <summary>Which jobs, by site, throw an <see cref="InjectedFailureException"/> instead of being called; only such that may
        /// fail are asked for, several at a time. For tests; none if left out.</summary>
        [MaybeNull]
        public Func<string, bool> Fail { get; set; }

        /// <summary>Lets the jobs of these sites fail, and no other.</summary>
        /// <remarks><see cref="TaskGraphBuilder.Start"/> refuses a site that the graph doesn't have, or whose job isn't declared with
        /// mayFail.</remarks>
        public static RunOptions Failing(params string[] sites) => new RunOptions { Fail = sites.Contains, FailingSites = sites };

        /// <summary>What is done before the run, once the graph is complete; null for nothing.</summary>
        internal Action<TaskGraphBuilder> Prepare { get; private set; }

        /// <summary>Leads the run the way of another one; null for none.</summary>
        internal RunGuide Guide { get; private set; }

        /// <summary>Leads the real run the way of the run that a verdict shows: with its inputs, failing jobs and requests, and in its order
        /// as far as the scheduler goes along.</summary>
        /// <param name="verdict">The verdict on a claim that fails, of a graph that is declared alike.</param>
        /// <exception cref="ArgumentException">The verdict shows no run.</exception>
        public static RunOptions Toward(ClaimVerdict verdict)
        {
            if (verdict == null || verdict.Verdict != Verdict.Fails)
            {
                throw new ArgumentException("no run is shown, since the claim doesn't fail; take a verdict that is Fails", nameof(verdict));
            }
            var guide = new RunGuide(verdict.Lines);
            return new RunOptions { Guide = guide, Prepare = guide.Prepare };
        }

        /// <summary>Delays, jobs that fail, a token that is requested, and values of inputs, all by chance: for tests that shake a graph.
        /// </summary>
        /// <remarks>In half of the runs one token is requested, of those whose source is known, before a step of some body. An input whose
        /// <see cref="GraphInput.Value"/> was set keeps it, and a condition that <see cref="TaskGraphBuilder.Decides"/> declares is asked.
        /// </remarks>
        /// <param name="seed">Of the chance. The scheduler has its own, so that a run with the same seed may be another one.</param>
        /// <param name="failures">How likely a job is to fail, 0 to 1.</param>
        public static RunOptions Shaken(int seed, double failures = 0.25)
        {
            var chance = new Shaker(seed, failures);
            return new RunOptions { StartLast = chance.StartsLast, Delay = chance.Delay, Fail = chance.Fails, Prepare = chance.Prepare };
        }
    }
}
