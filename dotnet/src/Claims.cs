using System;
using System.Collections.Generic;
using System.Linq;
using System.Threading.Tasks;
using TaskGraph.Internals;

namespace TaskGraph
{
    /// <summary>What has to hold in every run of the graph.</summary>
    public sealed class Claims
    {
        private readonly TaskGraphBuilder graph;
        private readonly List<string> texts = new List<string>();

        // the name of each claim, null for none
        private readonly List<string> names = new List<string>();

        // what stands before the next claim
        private string name;
        private string note;
        private bool isGivenOpen;

        internal Claims(TaskGraphBuilder graph)
        {
            this.graph = graph;
        }

        /// <summary>The claims, as a document has them.</summary>
        internal IReadOnlyList<string> Texts => texts;

        /// <summary>The next claim has this name, by which answers name it: 1 to 100 bytes of text, another one for each claim.</summary>
        /// <exception cref="ArgumentException">It is empty, too long, has a control character, or is that of an earlier claim.</exception>
        public Claims Named(string name)
        {
            if (names.Contains(Name.CheckedOfClaim(name)))
            {
                throw new ArgumentException("two claims are named " + name + "; give one another name");
            }
            this.name = name;
            return this;
        }

        /// <summary>The next claim has this note, which is for readers alone.</summary>
        public Claims WithNote(string note)
        {
            this.note = note;
            return this;
        }

        /// <summary>Begins one claim, which speaks only of the runs in which nobody requests these tokens.</summary>
        public GivenClaim Quiet(params GraphToken[] tokens) => NewGiven().Quiet(tokens);

        /// <summary>Begins one claim, which speaks only of the runs in which the input has this value.</summary>
        public GivenClaim Given(GraphInput input, bool value) => NewGiven().Given(input, value);

        /// <summary>Begins one claim, which speaks only of the runs in which the task, if it has ended, did so in one of these ways:
        /// RanToCompletion, Canceled, Faulted.</summary>
        public GivenClaim Ended(GraphTask task, params TaskStatus[] ends) => NewGiven().Ended(task, ends);

        /// <summary>Begins one claim, which speaks only of the runs in which the jobs of these sites don't fail.</summary>
        public GivenClaim Succeeds(params string[] sites) => NewGiven().Succeeds(sites);

        /// <summary>Begins one claim, which speaks only of the runs in which no job fails.</summary>
        public GivenClaim NoFailure() => NewGiven().NoFailure();

        /// <summary>Begins one claim, which speaks only of the runs in which nobody requests a token.</summary>
        public GivenClaim NoRequest() => NewGiven().NoRequest();

        /// <summary>If the task has ended, it has done so in one of these ways: RanToCompletion, Canceled, Faulted.</summary>
        /// <exception cref="ArgumentException">The task is of another graph, or no end or another status is named.</exception>
        public Claims Final(GraphTask task, params TaskStatus[] ends) => Final(task, null, ends);

        /// <summary>If the task has ended, it has done so in one of these ways: RanToCompletion, Canceled, Faulted.</summary>
        /// <param name="task">The task.</param>
        /// <param name="given">The runs of which the claim speaks; null for all.</param>
        /// <param name="ends">The ways.</param>
        /// <exception cref="ArgumentException">The task is of another graph, or no end or another status is named.</exception>
        public Claims Final(GraphTask task, Given given, params TaskStatus[] ends)
        {
            return Add(given, Json.Member("final", TextOf(task)) + "," + WaysOf(ends));
        }

        /// <summary>The second task begins only after the first one is settled.</summary>
        /// <param name="first">The first task.</param>
        /// <param name="second">The second task.</param>
        /// <param name="given">The runs of which the claim speaks; all, if left out.</param>
        /// <exception cref="ArgumentException">A task is of another graph.</exception>
        public Claims After(GraphTask first, GraphTask second, Given given = null)
        {
            return Add(given, Json.Member("after", Pair(first, second)));
        }

        /// <summary>The exception of the task's own body, if there is one, is read by somebody.</summary>
        /// <param name="task">The task.</param>
        /// <param name="given">The runs of which the claim speaks; all, if left out.</param>
        /// <exception cref="ArgumentException">The task is of another graph.</exception>
        public Claims Observed(GraphTask task, Given given = null) => Add(given, Json.Member("observed", TextOf(task)));

        /// <summary>If the run is complete, the task has begun.</summary>
        /// <param name="task">The task.</param>
        /// <param name="given">The runs of which the claim speaks; all, if left out.</param>
        /// <exception cref="ArgumentException">The task is of another graph.</exception>
        public Claims Runs(GraphTask task, Given given = null) => Add(given, Json.Member("runs", TextOf(task)));

        /// <summary>The task never begins.</summary>
        /// <param name="task">The task.</param>
        /// <param name="given">The runs of which the claim speaks; all, if left out.</param>
        /// <exception cref="ArgumentException">The task is of another graph.</exception>
        public Claims Never(GraphTask task, Given given = null) => Add(given, Json.Member("never", TextOf(task)));

        /// <summary>Not both tasks begin.</summary>
        /// <param name="one">A task.</param>
        /// <param name="other">Another one.</param>
        /// <param name="given">The runs of which the claim speaks; all, if left out.</param>
        /// <exception cref="ArgumentException">A task is of another graph.</exception>
        public Claims Excludes(GraphTask one, GraphTask other, Given given = null)
        {
            return Add(given, Json.Member("excludes", Pair(one, other)));
        }

        /// <summary>The ways in which a task ends, as a member of a document.</summary>
        /// <exception cref="ArgumentException">There is none, or one that is no end.</exception>
        internal static string WaysOf(TaskStatus[] ends)
        {
            if (ends.Length == 0)
            {
                throw new ArgumentException("a task ends in one way at least; name RanToCompletion, Canceled or Faulted");
            }
            foreach (TaskStatus end in ends)
            {
                GraphRules.CheckFinal(end);
            }
            return Json.Member("in", Json.List(ends.Select(it => Json.Text(it.ToString()))));
        }

        /// <summary>The name of the claim of this number, from 1; null for none.</summary>
        internal string NameOf(int claim) => names[claim - 1];

        /// <exception cref="InvalidOperationException">No claim stands behind a name, a note or a given.</exception>
        internal void Check()
        {
            if (isGivenOpen || name != null || note != null)
            {
                throw new InvalidOperationException("no claim stands behind the last name, note or given; add it, as Final(..)");
            }
        }

        private GivenClaim NewGiven()
        {
            isGivenOpen = true;
            return new GivenClaim(graph);
        }

        private string Pair(GraphTask one, GraphTask other) => Json.List(new[] { TextOf(one), TextOf(other) });

        /// <exception cref="ArgumentException">The task is of another graph.</exception>
        private string TextOf(GraphTask task) => Json.Text(graph.DemandOwn(task).Name);

        private Claims Add(Given given, string says)
        {
            texts.Add(Json.Object(About(given).Concat(new[] { says }).ToArray()));
            names.Add(name);
            name = note = null;
            isGivenOpen = false;
            return this;
        }

        /// <summary>What the next claim says beside its sort.</summary>
        private IEnumerable<string> About(Given given)
        {
            if (name != null)
            {
                yield return Json.Member("name", Json.Text(name));
            }
            if (note != null)
            {
                yield return Json.Member("note", Json.Text(note));
            }
            if (given != null && given.Texts.Count > 0)
            {
                yield return Json.Member("given", Json.List(given.Texts));
            }
        }
    }
}
