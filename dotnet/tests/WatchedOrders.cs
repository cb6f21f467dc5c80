using System.Collections.Generic;
using System.Threading.Tasks;

namespace TaskGraph.Tests
{
    /// <summary>Orders whose methods stay as they are, and whose calls are watched.</summary>
    internal sealed class WatchedOrders : CalledOrders
    {
        private readonly TaskGraphBuilder graph;
        private readonly GraphRun run;

        /// <param name="failing">The jobs that fail.</param>
        /// <param name="graph">What the method is declared as.</param>
        internal WatchedOrders(IEnumerable<string> failing, TaskGraphBuilder graph)
            : base(failing, null, null)
        {
            this.graph = graph;
            run = graph.Watch();
        }

        internal GraphRun Run => run;

        protected override Task Do(string job) => run.Call(graph[job], () => base.Do(job));
    }
}
