using System;
using System.Collections.Generic;
using System.Linq;
using System.Text.RegularExpressions;
using System.Threading;
using System.Threading.Tasks;
using Xunit;
using static System.Threading.Tasks.TaskContinuationOptions;

namespace TaskGraph.Tests
{
    /// <summary>The verdict on each claim of graphs of which it is plain what is so.</summary>
    public class Verdicts
    {
        [Fact]
        public void EachClaimHasItsVerdict()
        {
            IReadOnlyList<ClaimVerdict> verdicts = OfEachKind().Verdicts(depth: 0, runs: 1000);
            Assert.Equal("1 Holds, 2 Fails, 3 Empty, 4 Unknown", string.Join(", ", verdicts.Select(it => it.Claim + " " + it.Verdict)));
            Assert.Equal("Fetch never begins", verdicts[1].Text);
            Assert.Equal("w1 begin Fetch|claim 2 fails here", WithoutLines(string.Join("|", verdicts[1].Lines)));
            Assert.Equal("Stop never begins", string.Join("|", verdicts[2].Lines));
            Assert.Equal("claim 2 fails: Fetch never begins\n  w1 begin Fetch\n  claim 2 fails here", WithoutLines(verdicts[1].ToString()));
            Assert.Equal("", string.Join("|", verdicts[0].Lines));
            Assert.True(verdicts[3].Lines.Count > 0);
        }

        // the alternatives need one split
        [Fact]
        public void MoreSplitsShowMore()
        {
            Assert.Equal(Verdict.Holds, OfEachKind().Verdicts()[3].Verdict);
        }

        [Fact]
        public void AClaimThatFailsIsToldWithItsRun()
        {
            TaskGraphBuilder graph = Fetching(out GraphTask fetch);
            graph.Claims.Never(fetch);
            var wrong = Assert.Throws<TaskGraphException>(() => graph.Verify());
            Assert.Equal("claim 1 fails: Fetch never begins\n  w1 begin Fetch\n  claim 1 fails here\n"
                + "claims 1, holds 0, fails 1, empty 0, unknown 0\n", WithoutLines(wrong.Message));
        }

        // beside each event stands where its task is declared
        [Fact]
        public void EachEventHasItsLine()
        {
            TaskGraphBuilder graph = Fetching(out GraphTask fetch);
            graph.Claims.Never(fetch);
            Match found = Regex.Match(graph.Verdicts()[0].Lines[0], "^w1 begin Fetch +// Verdicts[.]cs:([0-9]+)$");
            Assert.True(found.Success);
            Assert.Contains("\"note\":\"Verdicts.cs:" + found.Groups[1].Value + "\"", graph.ToJson());
        }

        // the line stands before a note that the task was given
        [Fact]
        public void ANoteStandsBehindTheLine()
        {
            TaskGraphBuilder graph = Fetching(out GraphTask fetch);
            fetch.WithNote("two tries");
            Assert.Equal("two tries", fetch.Note);
            Assert.True(Regex.IsMatch(graph.ToJson(), "\"note\":\"Verdicts[.]cs:[0-9]+: two tries\""));
        }

        // what is given is given for one claim: the next one is about every run
        [Fact]
        public void AGivenIsForOneClaim()
        {
            TaskGraphBuilder graph = Fetching(out GraphTask fetch);
            graph.Claims.NoFailure().Final(fetch, TaskStatus.RanToCompletion).Claims.Final(fetch, TaskStatus.RanToCompletion);
            graph.Claims.Final(fetch, graph.Given.NoFailure(), TaskStatus.RanToCompletion);
            graph.Claims.Runs(fetch, graph.Given.NoFailure().NoRequest()).Final(fetch, TaskStatus.RanToCompletion);
            Assert.Equal("Holds, Fails, Holds, Holds, Fails", string.Join(", ", graph.Verdicts().Select(it => it.Verdict)));
        }

        // what verifies is certified
        [Fact]
        public void CertifySearchesAsDeeplyAsVerify()
        {
            foreach (int splits in new[] { 1, 3 })
            {
                TaskGraphBuilder graph = Splitting(splits);
                graph.Verify();
                Assert.Contains("\"certificate\"", graph.Certify());
            }
            Assert.Throws<TaskGraphException>(() => Splitting(3).Certify(depth: 2));
        }

        [Fact]
        public void ATimeThatIsUpIsTold()
        {
            TaskGraphBuilder graph = OfEachKind();
            Assert.Contains("longer limit", Assert.Throws<TimeoutException>(() => graph.Verify(limit: TimeSpan.Zero)).Message);
            Assert.Throws<TimeoutException>(() => graph.Certify(limit: TimeSpan.Zero));
            Assert.Throws<OperationCanceledException>(() => graph.Verify(token: new CancellationToken(true)));
        }

        [Fact]
        public void AnEmptyClaimIsRefused()
        {
            TaskGraphBuilder graph = Fetching(out GraphTask fetch);
            graph.Claims.Excludes(fetch, fetch.ContinueWith("Stop", new Steps(), OnlyOnCanceled));
            var wrong = Assert.Throws<TaskGraphException>(() => graph.Verify());
            Assert.StartsWith("claim 1 empty: Fetch and Stop don't both begin\n  Stop never begins\n", wrong.Message);
        }

        [Fact]
        public void AClaimThatHoldsIsAccepted()
        {
            TaskGraphBuilder graph = Fetching(out GraphTask fetch);
            graph.Claims.After(fetch, fetch.ContinueWith("Store", new Steps()));
            graph.Verify();
        }

        [Fact]
        public void AGraphWithoutClaimsIsNoTest()
        {
            TaskGraphBuilder graph = Fetching(out GraphTask fetch);
            var wrong = Assert.Throws<TaskGraphException>(() => graph.Verify());
            Assert.StartsWith("claims 0, holds 0, fails 0, empty 0, unknown 0\nno claim was asked", wrong.Message);
            Assert.Equal(0, graph.Verdicts().Count);
        }

        [Fact]
        public void WhatCannotBeReadIsToldInTheProgramsWords()
        {
            TaskGraphBuilder graph = Fetching(out GraphTask fetch);
            graph.Claims.Observed(graph.WhenAll("All", fetch));
            var wrong = Assert.Throws<TaskGraphException>(() => graph.Verdicts());
            Assert.StartsWith("unreadable: claim 1 ", wrong.Message);
        }

        /// <summary>One that holds, one that fails, one that is empty, and one whose certificate needs a split.</summary>
        private static TaskGraphBuilder OfEachKind()
        {
            TaskGraphBuilder graph = Fetching(out GraphTask fetch);
            GraphTask store = fetch.ContinueWith("Store", new Steps(), OnlyOnRanToCompletion);
            GraphTask repair = fetch.ContinueWith("Repair", new Steps(), OnlyOnFaulted);
            GraphTask stop = fetch.ContinueWith("Stop", new Steps(), OnlyOnCanceled);
            graph.Claims.After(fetch, store).Never(fetch).Excludes(store, stop).Excludes(store, repair);
            return graph;
        }

        /// <summary>Two tasks that fail together, where so many inputs are odd in number: no certificate without a split on each.</summary>
        private static TaskGraphBuilder Splitting(int inputs)
        {
            var graph = new TaskGraphBuilder();
            GraphInput[] asked = Enumerable.Range(1, inputs).Select(it => graph.Input("i" + it)).ToArray();
            GraphTask one = graph.Run("One", Odd(asked, false));
            GraphTask other = graph.Run("Other", Odd(asked, false));
            GraphTask good = one.ContinueWith("Good", new Steps(), OnlyOnRanToCompletion);
            graph.Claims.Excludes(good, other.ContinueWith("Bad", new Steps(), OnlyOnFaulted));
            return graph;
        }

        private static Steps Odd(GraphInput[] left, bool isOdd)
        {
            if (left.Length == 0)
            {
                return isOdd ? new Steps().Throw("Odd") : new Steps();
            }
            GraphInput[] rest = left.Skip(1).ToArray();
            return new Steps().If(left[0], Odd(rest, !isOdd), Odd(rest, isOdd));
        }

        private static string WithoutLines(string text) => Regex.Replace(text, " +// Verdicts[.]cs:[0-9]+", "");

        private static TaskGraphBuilder Fetching(out GraphTask fetch)
        {
            var graph = new TaskGraphBuilder();
            fetch = graph.Run("Fetch", () => { }, mayFail: true);
            return graph;
        }
    }
}
