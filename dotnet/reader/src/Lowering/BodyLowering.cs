using System;
using System.Collections.Generic;
using System.Linq;

namespace TaskGraph.Reading
{
    /// <summary>Makes tasks of the places of a body.</summary>
    internal sealed class BodyLowering
    {
        private readonly DocumentBuilder builder;
        private readonly PathNode root;
        private readonly Signals signals;

        /// <param name="builder">The document.</param>
        /// <param name="root">The first node of the body.</param>
        /// <param name="start">Where control arrives at it.</param>
        /// <param name="subject">The task that it continues; null for none.</param>
        /// <param name="isInner">Whether it is the body of a task, and no method by itself.</param>
        public BodyLowering(DocumentBuilder builder, PathNode root, Signal start, PathTask subject, bool isInner)
        {
            this.builder = builder;
            this.root = root;
            Start = start;
            Subject = subject;
            IsInner = isInner;
            Places = new Places(builder, root);
            signals = new Signals(builder, Places, root, start);
        }

        public Signal Start { get; }

        public PathTask Subject { get; }

        public bool IsInner { get; }

        public Places Places { get; }

        public List<Ending> Endings { get; } = new List<Ending>();

        public void Run()
        {
            var steps = new StepLowering(builder, this);
            foreach (Place place in Places.Order.Where(it => !it.IsEnd))
            {
                place.In = signals.Arrive(place);
                steps.Lower(place);
            }
            FindEndings();
        }

        private void FindEndings()
        {
            var seen = new HashSet<string>();
            foreach (PathNode end in Places.Nodes.Where(it => it.IsEnd))
            {
                if (end == root)
                {
                    Endings.Add(new Ending(Start, end, null));
                }
                foreach (KeyValuePair<PathNode, Way> last in Places.Before(end))
                {
                    Signal signal = signals.Into(last.Key, last.Value, it => IsSameEnd(it, end));
                    if (seen.Add(signal.ToString() + end.Final + end.Exception?.Label))
                    {
                        Endings.Add(new Ending(signal, end, Places.Of(last.Key)));
                    }
                }
            }
        }

        private bool IsSameEnd(PathNode one, PathNode other) =>
            one.IsEnd && one.Final == other.Final && (one.Final == Final.RanToCompletion || IsSame(one.Exception, other.Exception));

        private bool IsSame(ThrownValue one, ThrownValue other)
        {
            if (one == null || other == null)
            {
                return one == other;
            }
            Place origin = Places.OriginOf(one);
            return one.Key == other.Key || (origin != null && origin == Places.OriginOf(other));
        }
    }
}
