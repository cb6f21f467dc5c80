using System;
using System.Collections.Generic;
using System.Threading;
using System.Threading.Tasks;
using Sample;

namespace TaskGraph.Tests
{
    /// <summary>Orders whose jobs are written down as they are called, and of which some fail.</summary>
    internal class CalledOrders : Orders
    {
        private readonly HashSet<string> failing;
        private readonly string stopping;
        private readonly CancellationTokenSource stop;
        private readonly List<string> calls = new List<string>();

        /// <param name="failing">The jobs that fail.</param>
        /// <param name="stopping">The job that requests the token; none if null.</param>
        /// <param name="stop">The source of the token.</param>
        internal CalledOrders(IEnumerable<string> failing, string stopping, CancellationTokenSource stop)
        {
            this.failing = new HashSet<string>(failing);
            this.stopping = stopping;
            this.stop = stop;
        }

        /// <summary>The jobs that were called, in order.</summary>
        internal string Calls
        {
            get
            {
                lock (calls)
                {
                    return string.Join(" ", calls);
                }
            }
        }

        protected override async Task Do(string job)
        {
            lock (calls)
            {
                calls.Add(job);
            }
            // together begin together: what is called first has time to be called first
            await Task.Delay(job == "Users" ? 4 : 1).ConfigureAwait(false);
            if (job == stopping)
            {
                stop.Cancel();
            }
            if (failing.Contains(job))
            {
                throw new InvalidOperationException(job);
            }
        }
    }
}
