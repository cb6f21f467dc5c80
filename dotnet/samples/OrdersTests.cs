using System;
using System.Threading.Tasks;
using TaskGraph;
using Xunit;

namespace Sample
{
    public class OrdersTests
    {
        // the method as it stands is a run of its declaration, whether nothing fails or something
        [Fact]
        public void TheMethodIsWhatIsDeclared()
        {
            foreach (string failing in new[] { "none", "Load", "Save" })
            {
                var g = new TaskGraphBuilder();
                new Orders().DeclareHandle(g);
                GraphRun run = g.Watch();
                new WatchedOrders(g, run, failing).Handle().Wait();
                Assert.True(run.Wait(5000));
                run.Audit();
            }
        }

        /// <summary>Orders whose methods stay as they are, and whose calls are made through the run.</summary>
        private sealed class WatchedOrders : Orders
        {
            private readonly TaskGraphBuilder g;
            private readonly GraphRun run;
            private readonly string failing;

            internal WatchedOrders(TaskGraphBuilder g, GraphRun run, string failing)
            {
                this.g = g;
                this.run = run;
                this.failing = failing;
            }

            protected override Task Do(string job) => run.Call(g[job], () => Answer(job));

            private Task Answer(string job) => job == failing ? throw new InvalidOperationException(job) : base.Do(job);
        }
    }
}
