using System;
using System.Collections.Generic;
using System.Threading;

namespace TaskGraph.Tests
{
    /// <summary>A thread that requests tokens at a moment by chance.</summary>
    internal sealed class Outside
    {
        private const int LongestSpin = 60000;
        private const int LongestSleep = 6;

        private readonly Thread thread;

        private Outside(Thread thread)
        {
            this.thread = thread;
        }

        internal static Outside Request(IReadOnlyList<GraphToken> tokens, Random chance)
        {
            int spin = chance.Next(LongestSpin);
            int sleep = chance.Next(3) == 0 ? chance.Next(LongestSleep) : 0;
            var thread = new Thread(() =>
            {
                Thread.SpinWait(spin);
                Thread.Sleep(sleep);
                foreach (GraphToken token in tokens)
                {
                    token.Source.Cancel();
                    Thread.SpinWait(spin / 16);
                }
            });
            thread.Start();
            return new Outside(thread);
        }

        internal void Join()
        {
            thread.Join();
        }
    }
}
