using System;
using System.Collections.Generic;
using System.Linq;
using System.Threading.Tasks;

namespace TaskGraph.Reading
{
    /// <summary>A step on the paths through a body, and the ways on from it.</summary>
    internal sealed class PathNode
    {
        public PathNode(int id, NodeKind kind, string origin, string site)
        {
            Id = id;
            Kind = kind;
            Origin = origin;
            Site = site;
        }

        public int Id { get; }

        public NodeKind Kind { get; }

        /// <summary>The line, or the offset, and the method.</summary>
        public string Origin { get; }

        /// <summary>The place in the code, with the calls that lead to it: the same on each path.</summary>
        public string Site { get; }

        /// <summary>The name of a job.</summary>
        public string Name { get; set; }

        public bool IsSafe { get; set; }

        public PathToken Token { get; set; }

        public PathTask Task { get; set; }

        /// <summary>How a body ends, or the end that a branch asks for.</summary>
        public Final Final { get; set; }

        /// <summary>What a body ends with.</summary>
        public ThrownValue Exception { get; set; }

        /// <summary>The value that a branch asks for.</summary>
        public string Input { get; set; }

        public SortedDictionary<Way, PathNode> Out { get; } = new SortedDictionary<Way, PathNode>();

        public bool IsEnd => Kind == NodeKind.End;

        /// <summary>This node and each that follows it, those that are met first first.</summary>
        public IEnumerable<PathNode> Reachable()
        {
            var seen = new HashSet<PathNode>();
            var open = new Stack<PathNode>();
            open.Push(this);
            while (open.Count > 0)
            {
                PathNode node = open.Pop();
                if (!seen.Add(node))
                {
                    continue;
                }
                yield return node;
                foreach (PathNode next in node.Out.Values)
                {
                    open.Push(next);
                }
            }
        }

        /// <summary>The ends that may follow this node.</summary>
        public IEnumerable<PathNode> Ends() => Reachable().Where(node => node.IsEnd);
    }
}
