using System.Collections.Generic;
using System.Linq;
using Mono.Cecil;
using Mono.Cecil.Cil;

namespace TaskGraph.Reading
{
    /// <summary>Instructions of arrays. Those with a length that stands in the code are followed.</summary>
    internal sealed class ArrayInstructions
    {
        private const int Longest = 300;

        private readonly Machine machine;

        public ArrayInstructions(Machine machine)
        {
            this.machine = machine;
        }

        public void AddTo(Acts acts)
        {
            acts.On(Make, Code.Newarr);
            acts.On(state => Give(state, Length(state, state.Top.Pop())), Code.Ldlen);
            acts.On(Store, Acts.Named("Stelem_"));
            acts.On(Load, Acts.Named("Ldelem_"));
            acts.On(LoadAddress, Code.Ldelema);
        }

        private static PathNode Give(PathState state, Value value)
        {
            state.Top.Give(value);
            return null;
        }

        private PathNode Make(PathState state)
        {
            Value length = state.Top.Pop();
            var type = (TypeReference)state.Top.Instruction.Operand;
            if (length is Number number && number.Amount <= Longest)
            {
                return Give(state, machine.NewObject(state, Enumerable.Range(0, (int)number.Amount).Select(_ => Types.DefaultOf(type))));
            }
            if (Types.IsTask(type))
            {
                throw state.Refuse(RefusalCode.List, "an array of tasks whose length isn't known");
            }
            return Give(state, machine.Fresh("array"));
        }

        private Value Length(PathState state, Value array)
        {
            List<Value> items = state.ItemsOf(array);
            return items == null ? machine.Fresh("length") : (Value)new Number(items.Count);
        }

        private PathNode Store(PathState state)
        {
            List<Value> popped = state.Top.Pop(3);
            List<Value> items = state.ItemsOf(popped[0]);
            if (items != null && popped[1] is Number index && index.Amount < items.Count)
            {
                items[(int)index.Amount] = popped[2];
            }
            else if (Memory.IsFollowed(popped[2]))
            {
                throw state.Refuse(RefusalCode.List, "a task is kept at an index that isn't known");
            }
            state.Top.At++;
            return null;
        }

        private PathNode Load(PathState state)
        {
            List<Value> both = state.Top.Pop(2);
            List<Value> items = state.ItemsOf(both[0]);
            return Give(state, (items == null ? null : ItemAt(items, both[1])) ?? machine.Fresh("item"));
        }

        /// <summary>The item at a place; null where it isn't known.</summary>
        private static Value ItemAt(List<Value> items, Value place)
        {
            bool isInside = place is Number number && number.Amount >= 0 && number.Amount < items.Count;
            return isInside ? items[(int)((Number)place).Amount] : (place as WinnerIndex)?.In(items);
        }

        private PathNode LoadAddress(PathState state)
        {
            state.Top.Pop(2);
            return Give(state, machine.Fresh("item"));
        }
    }
}
