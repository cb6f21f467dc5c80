using System;
using System.Collections.Generic;

namespace TaskGraph.Reading
{
    /// <summary>A rule with an act for each name of a method.</summary>
    internal abstract class NamedCalls : ICallRule
    {
        private readonly Dictionary<string, Func<Call, PathNode>> acts = new Dictionary<string, Func<Call, PathNode>>();

        protected NamedCalls(Machine machine)
        {
            Machine = machine;
        }

        protected Machine Machine { get; }

        public bool TryRun(Call call, out PathNode next)
        {
            next = null;
            if (!Covers(call) || !acts.TryGetValue(call.Name, out Func<Call, PathNode> act))
            {
                return false;
            }
            next = act(call);
            return true;
        }

        /// <summary>Whether the rule is about calls of this type or on this value.</summary>
        protected abstract bool Covers(Call call);

        protected void On(Func<Call, PathNode> act, params string[] names)
        {
            foreach (string name in names)
            {
                acts[name] = act;
            }
        }
    }
}
