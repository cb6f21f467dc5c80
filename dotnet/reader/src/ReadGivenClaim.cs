using System;
using System.Threading.Tasks;

namespace TaskGraph.Reading
{
    /// <summary>One claim whose given stands before it: <c>Claims.Ended("Release", TaskStatus.Faulted).Runs("Rollback")</c>.</summary>
    /// <remarks>What is given is for this one claim, so the claim gives back what was read, and another one begins with its
    /// <see cref="ReadGraph.Claims"/> again.</remarks>
    public sealed class ReadGivenClaim
    {
        private readonly ReadGraph graph;
        private readonly ReadGiven given;

        internal ReadGivenClaim(ReadGraph graph)
        {
            this.graph = graph;
            given = graph.Given;
        }

        /// <summary>Nobody requests these tokens.</summary>
        public ReadGivenClaim Quiet(params string[] tokens) => With(() => given.Quiet(tokens));

        /// <summary>The input has this value.</summary>
        public ReadGivenClaim Given(string input, bool value) => With(() => given.Input(input, value));

        /// <summary>The task, if it has ended, did so in one of these ways.</summary>
        public ReadGivenClaim Ended(string task, params TaskStatus[] ends) => With(() => given.Ended(task, ends));

        /// <summary>These jobs don't fail.</summary>
        public ReadGivenClaim Succeeds(params string[] jobs) => With(() => given.Succeeds(jobs));

        /// <summary>No job fails.</summary>
        public ReadGivenClaim NoFailure() => With(() => given.NoFailure());

        /// <summary>Nobody requests a token.</summary>
        public ReadGivenClaim NoRequest() => With(() => given.NoRequest());

        /// <summary>If the task has ended, it has done so in one of these ways: RanToCompletion, Canceled, Faulted.</summary>
        public ReadGraph Final(string task, params TaskStatus[] ends) => Claim(it => it.Final(task, given, ends));

        /// <summary>The second task begins only after the first one is settled.</summary>
        public ReadGraph After(string first, string second) => Claim(it => it.After(first, second, given));

        /// <summary>Not both tasks begin.</summary>
        public ReadGraph Excludes(string one, string other) => Claim(it => it.Excludes(one, other, given));

        /// <summary>The exception of the task's own body, if there is one, is read by somebody.</summary>
        public ReadGraph Observed(string task) => Claim(it => it.Observed(task, given));

        /// <summary>If the run is complete, the task has begun.</summary>
        public ReadGraph Runs(string task) => Claim(it => it.Runs(task, given));

        /// <summary>The task never begins.</summary>
        public ReadGraph Never(string task) => Claim(it => it.Never(task, given));

        private ReadGivenClaim With(Action say)
        {
            say();
            return this;
        }

        private ReadGraph Claim(Action<ReadClaims> add)
        {
            add(graph.Claims);
            return graph;
        }
    }
}
