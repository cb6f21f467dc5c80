using System;
using System.Collections.Generic;
using System.Linq;

namespace TaskGraph.Reading
{
    /// <summary>Walks the paths from effect to effect. Equal states are one node; one that comes back is a loop.</summary>
    internal sealed class Explorer
    {
        private const int MostNodes = 3000;
        private const int MostDepth = 400;

        private readonly Machine machine;
        private readonly StateKeys keys;
        private Dictionary<string, PathNode> known = new Dictionary<string, PathNode>();
        private int explored;
        private int depth;

        public Explorer(Machine machine)
        {
            this.machine = machine;
            keys = new StateKeys(machine);
        }

        /// <summary>The next effect of a path.</summary>
        public PathNode Explore(PathState state)
        {
            string key = keys.Of(state);
            if (known.TryGetValue(key, out PathNode node))
            {
                return node ?? throw LoopOf(state);
            }
            known[key] = null;
            if (++explored > MostNodes)
            {
                throw state.Refuse(RefusalCode.Size, "more than " + MostNodes + " steps on the paths through it");
            }
            if (++depth > MostDepth)
            {
                throw state.Refuse(RefusalCode.Size, "a path with more than " + MostDepth + " steps");
            }
            node = machine.Interpreter.Run(state);
            depth--;
            return known[key] = node;
        }

        /// <summary>Where a path goes on: at a node that is known already, at its end, or by itself.</summary>
        public PathNode Follow(PathState state, PathNode known = null) => known ?? (state.HasEnded ? EndOf(state) : Explore(state));

        /// <summary>The same, where the path itself may go on at once.</summary>
        public PathNode RunOn(PathState state, PathNode known) =>
            known ?? (state.HasEnded ? EndOf(state) : machine.Interpreter.Run(state));

        /// <summary>Gives a node its ways on, each with a copy of the state.</summary>
        public PathNode Fork(PathState state, PathNode node, params Choice[] choices)
        {
            foreach (Choice choice in choices)
            {
                PathState copy = state.Clone();
                choice.Take(copy);
                node.Out[choice.Way] = Follow(copy);
            }
            return node;
        }

        /// <summary>Explores a body of its own, whose states are none of those around it.</summary>
        public PathNode Apart(PathState state)
        {
            Dictionary<string, PathNode> kept = known;
            known = new Dictionary<string, PathNode>();
            PathNode body = Explore(state);
            known = kept;
            return body;
        }

        /// <summary>The end of a body, whose last frame is gone.</summary>
        public PathNode EndOf(PathState state)
        {
            Final final = FinalOf(state);
            string key = "end " + final + state.Thrown?.Key;
            if (!known.TryGetValue(key, out PathNode node))
            {
                known[key] = node = machine.NewPlain(NodeKind.End);
                node.Final = final;
                node.Exception = state.Thrown;
            }
            return node;
        }

        private static Final FinalOf(PathState state)
        {
            if (state.Thrown == null)
            {
                return Final.RanToCompletion;
            }
            bool isOwn = state.OwnToken != null && state.Thrown.Label == Exceptions.LabelOf(state.OwnToken);
            return state.Thrown.IsCancellation && (state.IsAsync || isOwn) ? Final.Canceled : Final.Faulted;
        }

        /// <summary>The innermost loop in which a path is that comes back.</summary>
        private Exception LoopOf(PathState state)
        {
            Frame frame = state.Frames.LastOrDefault(it => machine.FlowOf(it.Method).Circles.Through(it.At).Count > 1);
            return frame == null
                ? (Exception)state.Refuse(RefusalCode.Loop, "a loop that comes back to the same state: no bound is seen")
                : new LoopFound(frame.Method, frame.At);
        }
    }
}
