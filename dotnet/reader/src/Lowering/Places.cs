using System.Collections.Generic;
using System.Linq;

namespace TaskGraph.Reading
{
    /// <summary>The nodes of a body by their places in the code.</summary>
    internal sealed class Places
    {
        private readonly DocumentBuilder builder;
        private readonly List<PathNode> nodes = new List<PathNode>();
        private readonly Dictionary<PathNode, Place> places = new Dictionary<PathNode, Place>();
        private readonly Dictionary<PathNode, List<KeyValuePair<PathNode, Way>>> before = new Dictionary<PathNode, List<KeyValuePair<PathNode, Way>>>();
        private readonly List<Place> order = new List<Place>();

        public Places(DocumentBuilder builder, PathNode root)
        {
            this.builder = builder;
            Visit(root, new HashSet<PathNode>());
            nodes.Reverse();
            nodes.ForEach(it => before[it] = new List<KeyValuePair<PathNode, Way>>());
            foreach (PathNode node in nodes)
            {
                foreach (KeyValuePair<Way, PathNode> next in node.Out)
                {
                    before[next.Value].Add(new KeyValuePair<PathNode, Way>(node, next.Key));
                }
            }
            foreach (PathNode node in nodes.Where(it => it.Kind == NodeKind.Spawn))
            {
                builder.Of(node.Task).Site = node.Site + (node.Task.Shape == TaskShape.Body ? "#" + node.Id : "");
            }
            Group();
            Dominate();
        }

        /// <summary>All nodes, each behind those that lead to it.</summary>
        public IReadOnlyList<PathNode> Nodes => nodes;

        /// <summary>All places, each behind those that lead to it.</summary>
        public IReadOnlyList<Place> Order => order;

        public Place Of(PathNode node) => places[node];

        /// <summary>The nodes that lead to a node, and the ways on which they do.</summary>
        public IReadOnlyList<KeyValuePair<PathNode, Way>> Before(PathNode node) => before[node];

        /// <summary>The place that threw an exception; null where the code made it itself.</summary>
        public Place OriginOf(ThrownValue thrown)
        {
            PathNode node = thrown == null || thrown.Origin < 0 ? null : nodes.FirstOrDefault(it => it.Id == thrown.Origin);
            return node == null ? null : places[node];
        }

        private void Visit(PathNode node, HashSet<PathNode> seen)
        {
            if (!seen.Add(node))
            {
                return;
            }
            foreach (PathNode next in node.Out.Values.Reverse())
            {
                Visit(next, seen);
            }
            nodes.Add(node);
        }

        /// <summary>Joins the nodes of each place. Where that would make a circle, the nodes stay apart.</summary>
        private void Group()
        {
            var split = new HashSet<string>();
            Place onCircle;
            do
            {
                var byKey = new Dictionary<string, Place>();
                Join(byKey, split);
                onCircle = null;
                order.Clear();
                var states = new Dictionary<Place, bool>();
                foreach (PathNode node in nodes)
                {
                    Sort(places[node], states, ref onCircle);
                }
                Place bad = onCircle;
                split.UnionWith(byKey.Where(it => it.Value == bad).Select(it => it.Key));
            }
            while (onCircle != null);
            order.Reverse();
        }

        private void Join(Dictionary<string, Place> byKey, HashSet<string> split)
        {
            places.Clear();
            foreach (PathNode node in nodes)
            {
                string key = KeyOf(node);
                bool isApart = split.Contains(key) || (node.Kind == NodeKind.Spawn && node.Task.Shape == TaskShape.Body);
                string own = isApart ? key + "#" + node.Id : key;
                if (!byKey.TryGetValue(own, out Place place))
                {
                    byKey[own] = place = new Place();
                }
                place.Members.Add(node);
                places[node] = place;
            }
            foreach (PathNode node in nodes)
            {
                places[node].Next.UnionWith(node.Out.Values.Select(it => places[it]));
            }
        }

        private string KeyOf(PathNode node)
        {
            bool isOfTask = node.Kind == NodeKind.Await || node.Kind == NodeKind.Winner;
            return node.IsEnd ? "end" + node.Id : node.Kind + node.Site + (isOfTask ? builder.Of(node.Task).Site : "");
        }

        /// <summary>Puts a place behind all that follow it. The state of a place is whether it is still open.</summary>
        private void Sort(Place place, Dictionary<Place, bool> states, ref Place onCircle)
        {
            if (states.TryGetValue(place, out bool isOpen))
            {
                onCircle = isOpen && place.Members.Count > 1 ? place : onCircle;
                return;
            }
            states[place] = true;
            foreach (Place next in place.Next.Reverse())
            {
                if (next == place)
                {
                    onCircle = place;
                }
                else
                {
                    Sort(next, states, ref onCircle);
                }
            }
            states[place] = false;
            order.Add(place);
        }

        private void Dominate()
        {
            foreach (Place place in order)
            {
                HashSet<Place> common = null;
                foreach (Place previous in order.Where(it => it.Next.Contains(place)))
                {
                    if (common == null)
                    {
                        common = new HashSet<Place>(previous.Dominators);
                    }
                    else
                    {
                        common.IntersectWith(previous.Dominators);
                    }
                }
                place.Dominators = common ?? new HashSet<Place>();
                place.Dominators.Add(place);
            }
        }
    }
}
