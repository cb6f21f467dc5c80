using System.Collections.Generic;
using System.Linq;
using Mono.Cecil;
using Mono.Cecil.Cil;

namespace TaskGraph.Reading
{
    /// <summary>Instructions that read and write fields and what addresses point to.</summary>
    internal sealed class FieldInstructions
    {
        private readonly Machine machine;

        public FieldInstructions(Machine machine)
        {
            this.machine = machine;
        }

        public void AddTo(Acts acts)
        {
            acts.On(state => Give(state, machine.Memory.Load(state, state.Top.Pop(), FieldOf(state))), Code.Ldfld);
            acts.On(state => Give(state, machine.Memory.AddressOf(state, state.Top.Pop(), FieldOf(state))), Code.Ldflda);
            acts.On(Store, Code.Stfld);
            acts.On(state => Give(state, machine.Memory.LoadStatic(state, FieldOf(state))), Code.Ldsfld);
            acts.On(StoreStatic, Code.Stsfld);
            acts.On(state => Give(state, machine.Fresh(Naming.OfField(FieldOf(state).Name))), Code.Ldsflda);
            acts.On(state => Give(state, new MethodValue((MethodReference)state.Top.Instruction.Operand)), Code.Ldftn);
            acts.On(LoadVirtual, Code.Ldvirtftn);
            acts.On(Initialise, Code.Initobj);
            acts.On(state => Give(state, machine.Memory.At(state, state.Top.Pop())), Acts.Named("Ldind_").Concat(new[] { Code.Ldobj }).ToArray());
            acts.On(StoreIndirect, Acts.Named("Stind_").Concat(new[] { Code.Stobj }).ToArray());
        }

        private static FieldReference FieldOf(PathState state) => (FieldReference)state.Top.Instruction.Operand;

        private static PathNode Give(PathState state, Value value)
        {
            state.Top.Give(value);
            return null;
        }

        private static PathNode GoOn(PathState state)
        {
            state.Top.At++;
            return null;
        }

        private PathNode Store(PathState state)
        {
            List<Value> both = state.Top.Pop(2);
            machine.Memory.Store(state, both[0], FieldOf(state), both[1]);
            return GoOn(state);
        }

        private PathNode StoreStatic(PathState state)
        {
            machine.Memory.StoreStatic(state, FieldOf(state), state.Top.Pop());
            return GoOn(state);
        }

        private PathNode LoadVirtual(PathState state)
        {
            state.Top.Pop();
            return Give(state, new MethodValue((MethodReference)state.Top.Instruction.Operand));
        }

        private PathNode Initialise(PathState state)
        {
            machine.Memory.Put(state, state.Top.Pop(), Types.DefaultOf((TypeReference)state.Top.Instruction.Operand));
            return GoOn(state);
        }

        private PathNode StoreIndirect(PathState state)
        {
            List<Value> both = state.Top.Pop(2);
            machine.Memory.Put(state, both[0], both[1]);
            return GoOn(state);
        }
    }
}
