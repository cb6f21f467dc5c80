using System.Collections.Generic;
using System.Linq;
using Xunit;
using static System.Threading.Tasks.TaskContinuationOptions;
using static System.Threading.Tasks.TaskStatus;

namespace TaskGraph.Tests
{
    /// <summary>What documents have from version 3 on; tests/version3.json was written by hand.</summary>
    public class Version3
    {
        private const int MoreThan64 = 65;
        private const int LongestRun = 5000;

        [Fact]
        public void EachClaimHolds()
        {
            Declare().Verify();
        }

        [Fact]
        public void ItsCertificateFits()
        {
            string stored = Declare().Certify();
            Declare().Check(stored);
            TaskGraphBuilder other = Declare();
            other.Claims.Named("never stored").Never(other["Store"]);
            Assert.Throws<TaskGraphException>(() => other.Check(stored));
        }

        // the tests run in the locale C, which has ASCII alone
        [Fact]
        public void OtherLettersStayAsTheyAre()
        {
            Assert.Contains("asked for by \u00c5sa", Declare().Certify());
            Assert.StartsWith("claim 1 \"each night has a report: \u00fcberall\" holds: ", Declare().Verdicts()[0].ToString());
        }

        [Fact]
        public void ItsRunsAreAccepted()
        {
            GraphRun run = Declare().Start();
            Assert.True(run.Wait(LongestRun));
            run.Audit();
        }

        // a given that is left out: the fetch may fail, and nothing is stored
        [Fact]
        public void WithoutItsGivenAClaimFails()
        {
            TaskGraphBuilder g = Declare();
            g.Claims.Named("stored in each run").Runs(g["Store"]);
            ClaimVerdict last = g.Verdicts().Last();
            Assert.Equal(Verdict.Fails, last.Verdict);
            Assert.Equal("stored in each run", last.Name);
            Assert.StartsWith("claim 6 \"stored in each run\" fails: ", last.ToString());
        }

        // the words of an answer are found whatever a name says
        [Fact]
        public void NamesMayLookLikeAnswers()
        {
            TaskGraphBuilder g = Declare();
            g.Claims.Named("x\" fails: y").After(g["Fetch"], g["Report"]);
            g.Claims.Named("claim 1 fails: z").Never(g["Report"]);
            IReadOnlyList<ClaimVerdict> verdicts = g.Verdicts();
            string found = string.Join(", ", verdicts.Select(it => it.Claim + " " + it.Verdict));
            Assert.Equal("1 Holds, 2 Holds, 3 Holds, 4 Holds, 5 Holds, 6 Holds, 7 Fails", found);
            Assert.Equal("x\" fails: y", verdicts[5].Name);
            Assert.Equal("Report begins only after Fetch is settled", verdicts[5].Text);
        }

        [Fact]
        public void ManyClaimsAreRead()
        {
            Assert.Equal(MoreThan64, DeclareMany().Verdicts().Count(it => it.Verdict == Verdict.Holds));
        }

        /// <summary>Names, notes, each given, and the claim that a task runs.</summary>
        internal static TaskGraphBuilder Declare()
        {
            TaskGraphBuilder g = new TaskGraphBuilder().WithNote("the nightly import: \"fetch\", then \\store\\\nasked for by \u00c5sa");
            GraphToken stop = g.Token("stop");
            GraphTask fetch = g.Run("Fetch", new Steps().Work("fetch", () => { }, mayFail: true).Check(stop), stop).WithNote("two tries");
            GraphTask store = fetch.ContinueWith("Store", new Steps().Work("store", () => { }, mayFail: true), OnlyOnRanToCompletion);
            GraphTask report = g.WhenAll("All", fetch, store).ContinueWith("Report", new Steps().Observe());
            g.Claims.Named("each night has a report: \u00fcberall").Runs(report);
            g.Claims.WithNote("what is fetched is stored").Ended(fetch, RanToCompletion).Runs(store);
            g.Claims.Named("stored").Succeeds("fetch").Quiet(stop).Runs(store);
            g.Claims.NoFailure().NoRequest().Final(store, RanToCompletion);
            g.Claims.After(fetch, store);
            return g;
        }

        /// <summary>More claims than documents had before.</summary>
        internal static TaskGraphBuilder DeclareMany()
        {
            var g = new TaskGraphBuilder();
            GraphTask only = g.Run("Only", () => { });
            Enumerable.Range(0, MoreThan64).ToList().ForEach(_ => g.Claims.Final(only, RanToCompletion));
            return g;
        }
    }
}
