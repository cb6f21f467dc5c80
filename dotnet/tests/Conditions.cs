using System.Linq;
using System.Threading.Tasks;
using Xunit;
using static System.Threading.Tasks.TaskContinuationOptions;
using static System.Threading.Tasks.TaskStatus;

namespace TaskGraph.Tests
{
    /// <summary>Conditions on what a run finds, as inputs whose value the run notes.</summary>
    public class Conditions
    {
        private const int LongestRun = 5000;

        [Fact]
        public void TheRunNotesWhatItFinds()
        {
            foreach (bool found in new[] { false, true })
            {
                int asked = 0;
                TaskGraphBuilder g = Cached(() => Ask(found, ref asked));
                GraphRun run = Ended(g.Start());
                Assert.Equal(found ? RanToCompletion : Faulted, run.EndOf(g["Answer"]).Value);
                Assert.Equal(found, g.AllInputs.Single().Value);
                Assert.Contains("\"start\":{\"inputs\":{\"cached\":" + (found ? "true" : "false") + "}}", run.ToJson());
                // two bodies read it, and it is asked once
                Assert.Equal(1, asked);
            }
        }

        [Fact]
        public void ClaimsSpeakOfBothAnswers()
        {
            TaskGraphBuilder g = Cached(() => true);
            GraphInput cached = g.AllInputs.Single();
            g.Claims.Final(g["Answer"], RanToCompletion).Final(g["Answer"], g.Given.Input(cached, true), RanToCompletion);
            Assert.Equal("Fails, Holds", string.Join(", ", g.Verdicts().Select(it => it.Verdict)));
        }

        [Fact]
        public void CodeThatIsWatchedSaysWhatItFinds()
        {
            TaskGraphBuilder g = Cached(() => false);
            GraphInput cached = g.AllInputs.Single();
            GraphRun run = g.Watch();
            Task answer = run.Is(g["Answer"], Task.Run(run.Body(g["Answer"], it => { Assert.True(it.Decide(cached, true)); })));
            run.Is(g["Next"], answer.ContinueWith(run.Next(g["Next"], it => { it.Decide(cached, true); }), NotOnCanceled));
            Ended(run);
            Assert.Equal(true, cached.Value);
        }

        private static bool Ask(bool found, ref int asked)
        {
            asked++;
            return found;
        }

        private static TaskGraphBuilder Cached(System.Func<bool> condition)
        {
            var g = new TaskGraphBuilder();
            GraphInput cached = g.Decides("cached", condition);
            GraphTask answer = g.Run("Answer", new Steps().If(cached, new Steps(), new Steps().Throw("Missing")));
            answer.ContinueWith("Next", new Steps().If(cached, new Steps()), NotOnCanceled);
            return g;
        }

        private static GraphRun Ended(GraphRun run)
        {
            Assert.True(run.Wait(LongestRun));
            run.Audit();
            return run;
        }
    }
}
