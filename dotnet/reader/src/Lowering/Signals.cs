using System;
using System.Collections.Generic;
using System.Linq;

namespace TaskGraph.Reading
{
    /// <summary>Where control arrives at the places of a body, and where it goes on.</summary>
    internal sealed class Signals
    {
        private readonly DocumentBuilder builder;
        private readonly Places places;
        private readonly PathNode root;
        private readonly Signal start;
        private readonly Dictionary<string, Signal> ofMembers = new Dictionary<string, Signal>();
        private readonly Dictionary<PathNode, Signal> arrived = new Dictionary<PathNode, Signal>();

        public Signals(DocumentBuilder builder, Places places, PathNode root, Signal start)
        {
            this.builder = builder;
            this.places = places;
            this.root = root;
            this.start = start;
        }

        /// <summary>The signal of a way from a node to others, by its whole place where all that place's paths go
        /// there.</summary>
        public Signal Into(PathNode node, Way way, Func<PathNode, bool> isThere)
        {
            Place place = places.Of(node);
            return place.Behind(way).All(isThere) ? place.Edge(way) : OfMember(node, way);
        }

        /// <summary>Where control arrives at a place.</summary>
        public Signal Arrive(Place place)
        {
            if (place.Members.Contains(root))
            {
                return start;
            }
            List<Signal> signals = Signal.Distinct(
                place.Members.SelectMany(places.Before).Select(it => Into(it.Key, it.Value, node => places.Of(node) == place)));
            if (signals.Count == 1)
            {
                return signals[0];
            }
            // the first place before it that always leads here
            Place before = places.Order.FirstOrDefault(it => it != place && place.Dominators.Contains(it) && !it.EscapesFrom(place));
            return before == null ? builder.Or(signals, place.First.Origin) : Always(signals, before, place.First.Origin);
        }

        /// <summary>Control always arrives, in one of several ways: once all of them are over.</summary>
        private Signal Always(List<Signal> signals, Place before, string origin)
        {
            bool hasStart = signals.Any(it => it.IsStart);
            if (!hasStart && signals.All(it => it.IsFault))
            {
                return builder.Or(signals, origin);
            }
            DocumentTask joined = builder.All(signals.Where(it => !it.IsStart).Select(it => it.Task), "Joined");
            return hasStart || before.In.IsStart ? Signal.Ended(joined) : builder.And(before.In, builder.Over(joined));
        }

        private Signal OfMember(PathNode node, Way way)
        {
            Place place = places.Of(node);
            bool isWhole = place.Members.All(it => it.Out.ContainsKey(way)) && place.Behind(way).Distinct().Count() == 1;
            if (place.Members.Count == 1 || isWhole)
            {
                return place.Edge(way);
            }
            string key = node.Id + " " + way;
            if (!ofMembers.TryGetValue(key, out Signal signal))
            {
                Signal edge = place.Edge(way);
                signal = edge.IsSameAs(place.In) ? ArriveAt(node) : builder.And(ArriveAt(node), builder.AsRan(edge));
                ofMembers[key] = signal;
            }
            return signal;
        }

        private Signal ArriveAt(PathNode node)
        {
            Place place = places.Of(node);
            if (place.Members.Count == 1)
            {
                return place.In;
            }
            if (!arrived.TryGetValue(node, out Signal signal))
            {
                List<Signal> signals = node == root
                    ? new List<Signal> { start }
                    : Signal.Distinct(places.Before(node).Select(it => OfMember(it.Key, it.Value)));
                arrived[node] = signal = signals.Count == 1 ? signals[0] : builder.Or(signals, node.Origin);
            }
            return signal;
        }
    }
}
