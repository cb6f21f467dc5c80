using System;
using System.Collections.Generic;
using System.Linq;
using System.Threading.Tasks;

namespace TaskGraph.Reading
{
    /// <summary>The steps of one place in the code, on each path that leads there: one task stands for all of them.</summary>
    internal sealed class Place
    {
        private readonly Dictionary<Way, Func<Signal>> edges = new Dictionary<Way, Func<Signal>>();
        private readonly Dictionary<Way, Signal> made = new Dictionary<Way, Signal>();

        public List<PathNode> Members { get; } = new List<PathNode>();

        public HashSet<Place> Next { get; } = new HashSet<Place>();

        /// <summary>The places through which each path to this one leads, with itself.</summary>
        public HashSet<Place> Dominators { get; set; }

        /// <summary>Where control arrives.</summary>
        public Signal In { get; set; }

        /// <summary>The task that stands for the place.</summary>
        public DocumentTask Task { get; set; }

        public PathNode First => Members[0];

        public NodeKind Kind => First.Kind;

        public bool IsEnd => First.IsEnd;

        public void SetEdge(Way way, Func<Signal> edge) => edges[way] = edge;

        /// <summary>Where control goes on this way. It is made once it is asked for.</summary>
        public Signal Edge(Way way)
        {
            if (!made.TryGetValue(way, out Signal signal))
            {
                made[way] = signal = edges[way]();
            }
            return signal;
        }

        public IEnumerable<PathNode> Behind(Way way) => Members.Where(it => it.Out.ContainsKey(way)).Select(it => it.Out[way]);

        /// <summary>Whether an end can be reached from here without passing another place.</summary>
        public bool EscapesFrom(Place other)
        {
            var seen = new HashSet<Place>();
            var open = new Stack<Place>();
            open.Push(this);
            while (open.Count > 0)
            {
                Place place = open.Pop();
                if (place == other || !seen.Add(place))
                {
                    continue;
                }
                if (place.IsEnd)
                {
                    return true;
                }
                foreach (Place next in place.Next)
                {
                    open.Push(next);
                }
            }
            return false;
        }
    }
}
