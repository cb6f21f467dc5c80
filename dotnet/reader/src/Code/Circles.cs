using System;
using System.Collections.Generic;
using System.Linq;
using Mono.Cecil;
using Mono.Cecil.Cil;

namespace TaskGraph.Reading
{
    /// <summary>The loops of a method, where no await has to wait.</summary>
    internal sealed class Circles
    {
        private readonly MethodFlow flow;
        private readonly List<int>[] ahead;

        public Circles(MethodFlow flow)
        {
            this.flow = flow;
            ahead = Enumerable.Range(0, flow.Code.Count + 1).Select(_ => new List<int>()).ToArray();
            for (int at = 0; at < flow.Code.Count; at++)
            {
                ahead[at].AddRange(Onward(at));
            }
        }

        /// <summary>Where an instruction goes on, by an exception too.</summary>
        public IReadOnlyList<int> Ahead(int at) => ahead[at];

        /// <summary>All places on a circle through this one; empty where it is on none.</summary>
        public HashSet<int> Through(int at)
        {
            HashSet<int> behind = From(at, ahead);
            if (!behind.Contains(at))
            {
                return new HashSet<int>();
            }
            behind.IntersectWith(From(at, Reversed()));
            return behind;
        }

        private static HashSet<int> From(int at, List<int>[] edges)
        {
            var seen = new HashSet<int>();
            var open = new Stack<int>(edges[at]);
            while (open.Count > 0)
            {
                int place = open.Pop();
                if (!seen.Add(place))
                {
                    continue;
                }
                foreach (int next in edges[place])
                {
                    open.Push(next);
                }
            }
            return seen;
        }

        private List<int>[] Reversed()
        {
            List<int>[] back = ahead.Select(_ => new List<int>()).ToArray();
            for (int at = 0; at < ahead.Length; at++)
            {
                foreach (int next in ahead[at])
                {
                    back[next].Add(at);
                }
            }
            return back;
        }

        private IEnumerable<int> Onward(int at)
        {
            Instruction instruction = flow.Code[at];
            FlowControl control = instruction.OpCode.FlowControl;
            IEnumerable<int> next = IsOnState(at) ? OnState(at) : IsOnCompleted(at) ? flow.Targets(instruction) : flow.Next(at);
            bool mayThrow = control == FlowControl.Call || control == FlowControl.Throw;
            return mayThrow ? next.Concat(flow.Around(at)) : next;
        }

        /// <summary>Whether an await's answer to "has it ended?" is branched on: a path takes it for yes.</summary>
        private bool IsOnCompleted(int at) =>
            flow.Code[at].OpCode.FlowControl == FlowControl.Cond_Branch && at > 0
            && (flow.Code[at - 1].Operand as MethodReference)?.Name == "get_IsCompleted";

        /// <summary>Where a state machine goes on that begins: its state is that of the beginning.</summary>
        private IEnumerable<int> OnState(int at)
        {
            bool leaves = flow.Code[at].OpCode.Code == Code.Switch && flow.Code[at + 1].OpCode.Code.ToString().StartsWith("Leave", StringComparison.Ordinal);
            return new[] { leaves ? flow.PlaceOf(((Instruction[])flow.Code[at].Operand)[0]) : at + 1 };
        }

        /// <summary>Whether a state machine branches on its state, which stands in its first variable.</summary>
        private bool IsOnState(int at)
        {
            if (flow.Method.Name != "MoveNext" || flow.Code[at].OpCode.FlowControl != FlowControl.Cond_Branch)
            {
                return false;
            }
            for (int place = at - 1; place >= 0 && place >= at - 3; place--)
            {
                if (Variables.Loaded(flow.Code[place]) == 0 && flow.Code[place].OpCode.Code != Code.Ldloca_S)
                {
                    return true;
                }
                if (!IsConstant(flow.Code[place].OpCode.Code))
                {
                    return false;
                }
            }
            return false;
        }

        private static bool IsConstant(Code code) =>
            code.ToString().StartsWith("Ldc_I4", StringComparison.Ordinal) || code == Code.Sub;
    }
}
