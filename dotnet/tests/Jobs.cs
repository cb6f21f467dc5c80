using System;
using System.Threading;
using System.Threading.Tasks;

namespace TaskGraph.Tests
{
    /// <summary>Jobs that take a while, each time another one.</summary>
    internal static class Jobs
    {
        [ThreadStatic]
        private static Random chance;

        private static int seeds;
        private static int turn;

        internal static void Busy()
        {
            if (chance == null)
            {
                chance = new Random(Interlocked.Increment(ref seeds));
            }
            int drawn = chance.Next(8);
            if (drawn == 0)
            {
                Thread.Sleep(1);
            }
            else if (drawn < 4)
            {
                Thread.SpinWait(chance.Next(5000));
            }
            else if (drawn == 4)
            {
                Thread.Yield();
            }
        }

        internal static void Short()
        {
            Thread.SpinWait(50);
        }

        /// <summary>Comes back at once, later on the pool, or after a delay, in turns.</summary>
        internal static async Task Later()
        {
            switch (Interlocked.Increment(ref turn) % 4)
            {
                case 0:
                    await Task.Delay(1).ConfigureAwait(false);
                    break;
                case 1:
                    break;
                default:
                    await Task.Yield();
                    break;
            }
        }
    }
}
