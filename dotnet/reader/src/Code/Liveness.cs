using System.Collections.Generic;
using System.Linq;
using Mono.Cecil;
using Mono.Cecil.Cil;

namespace TaskGraph.Reading
{
    /// <summary>Which local variables, and which fields of a state machine, are read later: the others don't make states
    /// differ.</summary>
    internal sealed class Liveness
    {
        private readonly MethodFlow flow;
        private readonly HashSet<string>[] live;
        private readonly HashSet<string> fields = new HashSet<string>();

        public Liveness(MethodFlow flow)
        {
            this.flow = flow;
            live = Enumerable.Range(0, flow.Code.Count + 1).Select(_ => new HashSet<string>()).ToArray();
            while (Improve())
            {
            }
        }

        public static string Local(int index) => "l" + index;

        /// <summary>Whether the machine's own code names the field at all.</summary>
        public bool Knows(string field) => fields.Contains(Field(field));

        /// <summary>Whether a field is read later.</summary>
        public static bool Has(HashSet<string> live, string field) => live.Contains(Field(field));

        /// <summary>What is read from a place on, or behind the blocks that wait there.</summary>
        public HashSet<string> From(int at, IReadOnlyList<Pending> pending)
        {
            if (pending.Count == 0)
            {
                return live[at];
            }
            var read = new HashSet<string>(live[at]);
            foreach (Pending block in pending)
            {
                read.UnionWith(live[block.IsThrow ? block.From : block.Target]);
                if (block.IsThrow)
                {
                    read.UnionWith(flow.Handlers.SelectMany(it => live[flow.PlaceOf(it.HandlerStart)]));
                }
            }
            return read;
        }

        private static string Field(string name) => "f" + name;

        private bool Improve()
        {
            bool isChanged = false;
            for (int at = flow.Code.Count - 1; at >= 0; at--)
            {
                HashSet<string> now = Before(at);
                isChanged |= !now.SetEquals(live[at]);
                live[at] = now;
            }
            return isChanged;
        }

        /// <summary>What is read from an instruction on, by what is read behind it.</summary>
        private HashSet<string> Before(int at)
        {
            Instruction instruction = flow.Code[at];
            var read = new HashSet<string>(flow.Next(at).SelectMany(it => live[it]));
            int stored = Variables.Stored(instruction), loaded = Variables.Loaded(instruction);
            if (stored >= 0)
            {
                read.Remove(Local(stored));
            }
            if (loaded >= 0)
            {
                read.Add(Local(loaded));
            }
            if (instruction.Operand is FieldReference field && IsOwn(field))
            {
                Put(read, Field(field.Name), instruction.OpCode.Code == Mono.Cecil.Cil.Code.Stfld);
            }
            read.UnionWith(flow.Around(at).SelectMany(it => live[it]));
            return read;
        }

        private bool IsOwn(FieldReference field) =>
            flow.Method.Name == "MoveNext" && field.DeclaringType.Name == flow.Method.DeclaringType.Name;

        private void Put(HashSet<string> read, string field, bool isStore)
        {
            fields.Add(field);
            if (isStore)
            {
                read.Remove(field);
            }
            else
            {
                read.Add(field);
            }
        }
    }
}
