using System.Collections.Generic;
using Mono.Cecil;
using Mono.Cecil.Cil;

namespace TaskGraph.Reading
{
    /// <summary>Calls and constructors.</summary>
    internal sealed class CallInstructions
    {
        private readonly Machine machine;
        private readonly Constructors constructors;

        public CallInstructions(Machine machine)
        {
            this.machine = machine;
            constructors = new Constructors(machine);
        }

        public void AddTo(Acts acts)
        {
            acts.On(state => machine.Calls.Run(Called(state, isVirtual: false)), Code.Call);
            acts.On(state => machine.Calls.Run(Called(state, isVirtual: true)), Code.Callvirt);
            acts.On(New, Code.Newobj);
        }

        private PathNode New(PathState state)
        {
            var method = (MethodReference)state.Top.Instruction.Operand;
            return constructors.Run(new Call(state, method, state.Top.Pop(method.Parameters.Count), null, null, false));
        }

        private Call Called(PathState state, bool isVirtual)
        {
            var method = (MethodReference)state.Top.Instruction.Operand;
            List<Value> arguments = state.Top.Pop(method.Parameters.Count);
            Value self = method.HasThis ? state.Top.Pop() : null;
            return new Call(state, method, arguments, self, self == null ? null : machine.Memory.At(state, self), isVirtual);
        }
    }
}
