using System;
using System.Collections.Generic;
using System.Linq;
using System.Threading;
using System.Threading.Tasks;
using TaskGraph;
using Xunit;

namespace Sample
{
    public class ReleaseTests
    {
        [Fact]
        public void TheFirstPageRuns()
        {
            new Release().First();
        }

        // every run keeps the claims: any order of events, any failing job, a request at any moment
        [Fact]
        public void EveryRunKeepsTheClaims()
        {
            new Release().Repaired().Verify();
            new Release().Stoppable(CancellationToken.None).Verify();
        }

        // what Certify returned is kept, in a file beside the code, and still fits; here it is made anew
        [Fact]
        public void TheStoredCertificateFits()
        {
            string stored = new Release().Repaired().Certify();
            new Release().Repaired().Check(stored);
            Assert.Throws<TaskGraphException>(() => new Release().Graph().Check(stored));
        }

        // the program is the graph: real runs with delays and failures, each audited
        [Fact]
        public void RealRunsAreRunsOfTheGraph()
        {
            for (int seed = 0; seed < 50; seed++)
            {
                GraphRun run = new Release().Repaired().Start(RunOptions.Shaken(seed));
                Assert.True(run.Wait(5000));
                run.Audit();
            }
        }

        // one case for each claim, which a runner shows by the claim's words
        public static IEnumerable<object[]> Claims()
        {
            return new Release().Repaired().Verdicts().Select(it => new object[] { it.Text, it.Verdict, it.ToString() });
        }

        [Theory]
        [MemberData(nameof(Claims))]
        public void EachClaimHolds(string claim, Verdict verdict, string answer)
        {
            Assert.True(verdict == Verdict.Holds, claim + ": " + answer);
        }

        // the same with requests from outside
        [Fact]
        public void StopsAreRunsOfTheGraph()
        {
            for (int seed = 0; seed < 20; seed++)
            {
                var stopping = new CancellationTokenSource(seed % 5);
                GraphRun run = new Release().Stoppable(stopping.Token).Start(RunOptions.Shaken(seed));
                Assert.True(run.Wait(5000));
                run.Audit();
            }
        }

        // the release as it was first written: a run in which the claim fails, no certificate, and a real run in which it fails
        [Fact]
        public void TheFirstReleaseRollsNothingBack()
        {
            var fails = Assert.Throws<TaskGraphException>(() => new Release().Graph().Verify());
            Assert.StartsWith("claim 1 fails: NoRollback and Notify don't both begin", fails.Message);
            Assert.Equal(Verdict.Fails, new Release().Graph().Verdicts().Single().Verdict);
            var none = Assert.Throws<TaskGraphException>(() => new Release().Graph().Certify());
            Assert.StartsWith("not found: claim 1", none.Message);
            Assert.Contains("claim 1 fails here", none.Message);
            GraphRun run = new Release().Graph().Start(RunOptions.Failing("Smoke"));
            Assert.True(run.Wait(5000));
            var wrong = Assert.Throws<TaskGraphException>(() => run.Audit());
            Assert.Contains("claim 1 fails", wrong.Message);
        }

        // the same without a marker
        [Fact]
        public void WhatFailsIsRolledBack()
        {
            TaskGraphBuilder g = new Release().Repaired();
            g.Claims.Named("what fails is rolled back").Ended(g["Release"], TaskStatus.Faulted).Runs(g["Rollback"]);
            g.Verify();
        }

        [Fact]
        public void TheFirstReleaseIsFoundWithoutAMarker()
        {
            TaskGraphBuilder g = new Release().Graph();
            g.Claims.Named("what fails is rolled back").Ended(g["Release"], TaskStatus.Faulted).Runs(g["Rollback"]);
            ClaimVerdict found = g.Verdicts().Single(it => it.Name == "what fails is rolled back");
            Assert.Equal(Verdict.Fails, found.Verdict);
            Assert.Contains("drop Rollback", found.ToString());
        }

        // shaken, it is refused in each run in which the deployment or the smoke test fails
        [Fact]
        public void ShakingFindsTheMistake()
        {
            int refused = 0;
            for (int seed = 0; seed < 50; seed++)
            {
                TaskGraphBuilder g = new Release().Graph();
                GraphRun run = g.Start(RunOptions.Shaken(seed));
                Assert.True(run.Wait(5000));
                bool hasReachedSwitch = run.EndOf(g["Switch"]) != TaskStatus.Canceled;
                try
                {
                    run.Audit();
                    Assert.True(hasReachedSwitch);
                }
                catch (TaskGraphException)
                {
                    Assert.True(!hasReachedSwitch);
                    refused++;
                }
            }
            Assert.Equal(24, refused);
        }

        // code that stays as it is, watched
        [Fact]
        public void TheCodeIsWhatIsDeclared()
        {
            var release = new FailingSmoke();
            GraphRun repaired = release.Watched(release.Repaired(), isRepaired: true);
            Assert.True(repaired.Wait(5000));
            repaired.Audit();
            GraphRun first = release.Watched(release.Repaired(), isRepaired: false);
            Assert.True(first.Wait(5000));
            Assert.Throws<TaskGraphException>(() => first.Audit());
        }

        [Fact]
        public void AwaitsCanBeWatched()
        {
            GraphRun run = new Release().WatchedProbe(CancellationToken.None);
            Assert.True(run.Wait(5000));
            run.Audit();
        }

        private sealed class FailingSmoke : Release
        {
            public override void Smoke()
            {
                throw new InvalidOperationException("the smoke test fails");
            }
        }
    }
}
