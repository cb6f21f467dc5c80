using System;
using System.Diagnostics;
using System.Threading;

namespace TaskGraph.Internals
{
    /// <summary>How long the calls of the program that answer one question may take together, and the token that ends them.</summary>
    internal sealed class CallLimit
    {
        private static readonly TimeSpan Usual = TimeSpan.FromMinutes(10);

        private readonly TimeSpan limit;
        private readonly CancellationToken token;
        private readonly Stopwatch since = Stopwatch.StartNew();

        /// <param name="limit">The time; null for ten minutes.</param>
        /// <param name="token">The token.</param>
        internal CallLimit(TimeSpan? limit, CancellationToken token)
        {
            this.limit = limit ?? Usual;
            this.token = token;
        }

        /// <exception cref="TimeoutException">The time is up.</exception>
        /// <exception cref="OperationCanceledException">The token is requested.</exception>
        internal ProgramAnswer Call(string words, string document)
        {
            TimeSpan left = limit == Timeout.InfiniteTimeSpan ? limit : limit - since.Elapsed;
            return TaskGraphProgram.Call(words, document, left < TimeSpan.Zero && left != Timeout.InfiniteTimeSpan ? TimeSpan.Zero : left, token);
        }
    }
}
