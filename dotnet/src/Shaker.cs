using System;
using System.Linq;
using System.Threading;

namespace TaskGraph.Internals
{
    /// <summary>Delays and failures by chance.</summary>
    internal sealed class Shaker
    {
        private enum Manner
        {
            None,
            Short,
            Yields,
            GivesUpItsSlice,
            Sleeps,
        }

        private const int Manners = 5;
        private const int LongestSpin = 3000;

        // a request comes before one of so many delays of each task, as a body has some four of them
        private const int MomentsOfTask = 4;

        private readonly object gate = new object();
        private readonly Random chance;
        private readonly Manner manner;
        private readonly int salt;
        private readonly double failures;
        private CancellationTokenSource[] requested = new CancellationTokenSource[0];
        private int moment;
        private int delays;

        internal Shaker(int seed, double failures)
        {
            chance = new Random(seed);
            manner = (Manner)chance.Next(Manners);
            salt = chance.Next();
            StartsLast = chance.Next(2) == 0;
            this.failures = failures;
        }

        internal bool StartsLast { get; }

        /// <summary>Chooses the token that is requested in the run, if one is, and the values of inputs that nobody has set.</summary>
        internal void Prepare(TaskGraphBuilder graph)
        {
            GraphToken[] tokens = graph.Tokens.Where(it => it.Source != null).ToArray();
            if (tokens.Length > 0 && chance.Next(2) == 0)
            {
                requested = new[] { tokens[chance.Next(tokens.Length)].Source };
                moment = chance.Next(MomentsOfTask * graph.Tasks.Count);
            }
            foreach (GraphInput input in graph.Inputs.Where(it => it.IsOpen))
            {
                input.Value = chance.Next(2) == 0;
            }
        }

        /// <summary>Whether the job of this site fails in this run.</summary>
        internal bool Fails(string site)
        {
            int sum = salt;
            foreach (char it in site)
            {
                sum = unchecked((sum * 31) + it);
            }
            return new Random(sum).NextDouble() < failures;
        }

        internal void Delay(GraphTask task)
        {
            int drawn = Draw();
            if (Interlocked.Increment(ref delays) == moment + 1)
            {
                Array.ForEach(requested, it => it.Cancel());
            }
            switch (manner)
            {
                case Manner.None: break;
                case Manner.Short: Thread.SpinWait(drawn / 16); break;
                case Manner.Yields: YieldOrSpin(drawn); break;
                case Manner.GivesUpItsSlice: SleepOrNot(drawn % 4 == 0, 0); break;
                default: SleepOrNot(drawn % 6 == 0, 1); break;
            }
        }

        private static void YieldOrSpin(int drawn)
        {
            if (drawn % 2 == 0)
            {
                Thread.Yield();
            }
            else
            {
                Thread.SpinWait(drawn);
            }
        }

        private static void SleepOrNot(bool sleeps, int milliseconds)
        {
            if (sleeps)
            {
                Thread.Sleep(milliseconds);
            }
        }

        private int Draw()
        {
            lock (gate)
            {
                return chance.Next(LongestSpin);
            }
        }
    }
}
