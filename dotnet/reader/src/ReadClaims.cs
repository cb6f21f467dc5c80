using System;
using System.Collections.Generic;
using System.Linq;
using System.Threading;
using System.Threading.Tasks;

namespace TaskGraph.Reading
{
    /// <summary>What has to hold in every run of a method that is read. Tasks are named as in the document.</summary>
    public sealed class ReadClaims
    {
        private readonly ReadGraph graph;
        private readonly List<string> claims = new List<string>();

        // what stands before the next claim
        private string name;
        private bool isGivenOpen;

        internal ReadClaims(ReadGraph graph)
        {
            this.graph = graph;
        }

        /// <summary>The next claim has this name.</summary>
        public ReadClaims Named(string claim)
        {
            name = claim;
            return this;
        }

        /// <summary>Begins one claim, which speaks only of the runs in which nobody requests these tokens.</summary>
        public ReadGivenClaim Quiet(params string[] tokens) => NewGiven().Quiet(tokens);

        /// <summary>Begins one claim, which speaks only of the runs in which the input has this value.</summary>
        public ReadGivenClaim Given(string input, bool value) => NewGiven().Given(input, value);

        /// <summary>Begins one claim, which speaks only of the runs in which the task, if it has ended, did so in one of these
        /// ways.</summary>
        public ReadGivenClaim Ended(string task, params TaskStatus[] ends) => NewGiven().Ended(task, ends);

        /// <summary>Begins one claim, which speaks only of the runs in which these jobs don't fail.</summary>
        public ReadGivenClaim Succeeds(params string[] jobs) => NewGiven().Succeeds(jobs);

        /// <summary>Begins one claim, which speaks only of the runs in which no job fails.</summary>
        public ReadGivenClaim NoFailure() => NewGiven().NoFailure();

        /// <summary>Begins one claim, which speaks only of the runs in which nobody requests a token.</summary>
        public ReadGivenClaim NoRequest() => NewGiven().NoRequest();

        /// <summary>If the task has ended, it has done so in one of these ways: RanToCompletion, Canceled, Faulted.</summary>
        public ReadClaims Final(string task, params TaskStatus[] ends) => Final(task, null, ends);

        /// <summary>The same, in the runs of which the claim speaks.</summary>
        public ReadClaims Final(string task, ReadGiven given, params TaskStatus[] ends) =>
            Add(given, Member("final", Checked(task)), Ways(ends));

        /// <summary>The second task begins only after the first one is settled.</summary>
        public ReadClaims After(string first, string second, ReadGiven given = null) => Add(given, Pair("after", first, second));

        /// <summary>Not both tasks begin.</summary>
        public ReadClaims Excludes(string one, string other, ReadGiven given = null) => Add(given, Pair("excludes", one, other));

        /// <summary>The exception of the task's own body, if there is one, is read by somebody.</summary>
        public ReadClaims Observed(string task, ReadGiven given = null) => Add(given, Member("observed", Checked(task)));

        /// <summary>If the run is complete, the task has begun.</summary>
        public ReadClaims Runs(string task, ReadGiven given = null) => Add(given, Member("runs", Checked(task)));

        /// <summary>The task never begins.</summary>
        public ReadClaims Never(string task, ReadGiven given = null) => Add(given, Member("never", Checked(task)));

        /// <summary>Demands that each claim holds in every run: <see cref="ReadGraph.Verify"/>.</summary>
        public void Verify(TimeSpan? limit = null, CancellationToken token = default(CancellationToken)) => graph.Verify(limit, token);

        /// <summary>The claims as a list in JSON.</summary>
        internal string ToJson() => "[" + string.Join(", ", claims) + "]";

        /// <exception cref="InvalidOperationException">There is no claim, or none behind the last name or given.</exception>
        internal void Demand()
        {
            if (claims.Count == 0 || name != null || isGivenOpen)
            {
                throw new InvalidOperationException("no claim stands there, or none behind the last name or given; add one, as Final(..)");
            }
        }

        internal static string Member(string word, string value) => JsonText.Member(word, JsonText.Of(value));

        internal static string Ways(TaskStatus[] ends) => JsonText.Member("in", JsonText.Names(ends.Select(it => it.ToString())));

        private string Pair(string word, string one, string other) =>
            JsonText.Member(word, JsonText.Names(new[] { Checked(one), Checked(other) }));

        private ReadGivenClaim NewGiven()
        {
            isGivenOpen = true;
            return new ReadGivenClaim(graph);
        }

        private ReadClaims Add(ReadGiven given, params string[] says)
        {
            var members = new List<string>();
            if (name != null)
            {
                members.Add(Member("name", name));
            }
            if (given != null && given.Texts.Count > 0)
            {
                members.Add(JsonText.Member("given", JsonText.List(given.Texts)));
            }
            claims.Add(JsonText.Object(members.Concat(says)));
            isGivenOpen = false;
            name = null;
            return this;
        }

        /// <exception cref="ArgumentException">The document has no such task.</exception>
        internal string Checked(string task)
        {
            if (!graph.Tasks.Contains(task))
            {
                throw new ArgumentException("the document has no task " + task + "; it has " + string.Join(", ", graph.Tasks));
            }
            return task;
        }
    }
}
