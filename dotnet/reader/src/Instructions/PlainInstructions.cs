using System;
using System.Linq;
using Mono.Cecil;
using Mono.Cecil.Cil;

namespace TaskGraph.Reading
{
    /// <summary>Instructions that put constants on the stack, or change nothing that is followed.</summary>
    internal sealed class PlainInstructions
    {
        private readonly Machine machine;

        public PlainInstructions(Machine machine)
        {
            this.machine = machine;
        }

        public void AddTo(Acts acts)
        {
            acts.OnFrame(_ => { }, Code.Nop, Code.Volatile, Code.Constrained, Code.Readonly, Code.Tail, Code.Unaligned);
            acts.OnFrame(_ => { }, Code.Box, Code.Unbox_Any, Code.Castclass, Code.Unbox);
            acts.OnFrame(_ => { }, Acts.Named("Conv_"));
            acts.OnFrame(frame => frame.Push(new NullValue()), Code.Ldnull);
            acts.OnFrame(PushSmall, Acts.Named("Ldc_I4_").Where(it => it != Code.Ldc_I4_S).ToArray());
            acts.OnFrame(frame => frame.Push(new Number(Convert.ToInt64(frame.Instruction.Operand))), Code.Ldc_I4, Code.Ldc_I4_S, Code.Ldc_I8);
            acts.OnFrame(frame => frame.Push(new TextValue(frame.Instruction.Operand.ToString())), Code.Ldc_R4, Code.Ldc_R8, Code.Ldstr);
            acts.OnFrame(frame => frame.Push(new Mark(MarkKind.Metadata, detail: frame.Instruction.Operand.ToString())), Code.Ldtoken);
            acts.OnFrame(frame => frame.Push(machine.Fresh("size")), Code.Sizeof);
            acts.OnFrame(frame => frame.Push(frame.Stack[frame.Stack.Count - 1]), Code.Dup);
            acts.OnFrame(frame => frame.Pop(), Code.Pop);
            acts.On(IsInstance, Code.Isinst);
        }

        private static void PushSmall(Frame frame) => frame.Push(new Number(frame.Instruction.OpCode.Code - Code.Ldc_I4_0));

        private PathNode IsInstance(PathState state)
        {
            Frame frame = state.Top;
            Value value = frame.Pop();
            var type = (TypeReference)frame.Instruction.Operand;
            if (value is ThrownValue thrown)
            {
                return IsInstance(state, thrown, type);
            }
            frame.Give(value is Unknown ? machine.Fresh("is_" + type.Name, type) : value);
            return null;
        }

        private PathNode IsInstance(PathState state, ThrownValue thrown, TypeReference type)
        {
            bool? isOfType = machine.Exceptions.Matches(thrown, type, () => state.Where);
            if (isOfType.HasValue)
            {
                state.Top.Give(isOfType.Value ? thrown : (Value)new NullValue());
                return null;
            }
            return machine.Branches.Both(state, machine.Fresh("is_" + type.Name), it => Give(it, thrown), it => Give(it, new NullValue()));
        }

        private static PathNode Give(PathState state, Value value)
        {
            state.Top.Give(value);
            return null;
        }
    }
}
