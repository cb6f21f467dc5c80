using System;

namespace TaskGraph.Reading
{
    /// <summary>A way in which a body ends.</summary>
    internal sealed class Ending
    {
        public Ending(Signal signal, PathNode end, Place from)
        {
            Signal = signal;
            Final = end.Final;
            Exception = end.Exception;
            From = from;
        }

        /// <summary>Where control arrives at the end.</summary>
        public Signal Signal { get; }

        public Final Final { get; }

        public ThrownValue Exception { get; }

        /// <summary>The last place before it; null where the body does nothing.</summary>
        public Place From { get; }

        public bool IsRan => Final == Final.RanToCompletion;
    }
}
