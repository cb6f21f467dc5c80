using System;
using System.Collections.Generic;
using System.Linq;
using Mono.Cecil.Cil;

namespace TaskGraph.Reading
{
    /// <summary>What each instruction does to a path. An act that gives null lets the path go on.</summary>
    internal sealed class Acts
    {
        private readonly Dictionary<Code, Func<PathState, PathNode>> acts = new Dictionary<Code, Func<PathState, PathNode>>();

        /// <summary>The act of an instruction; null where it isn't read.</summary>
        public Func<PathState, PathNode> Find(Code code) =>
            acts.TryGetValue(code, out Func<PathState, PathNode> act) ? act : null;

        public void On(Func<PathState, PathNode> act, params Code[] codes)
        {
            foreach (Code code in codes)
            {
                acts[code] = act;
            }
        }

        /// <summary>Instructions that only change the frame, and go on behind themselves.</summary>
        public void OnFrame(Action<Frame> act, params Code[] codes)
        {
            On(
                state =>
                {
                    act(state.Top);
                    state.Top.At++;
                    return null;
                },
                codes);
        }

        /// <summary>The instructions of this beginning.</summary>
        public static Code[] Named(string beginning) =>
            Enum.GetValues(typeof(Code)).Cast<Code>().Where(it => it.ToString().StartsWith(beginning, StringComparison.Ordinal)).ToArray();
    }
}
