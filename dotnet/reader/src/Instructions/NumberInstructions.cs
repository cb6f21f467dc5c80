using System;
using System.Collections.Generic;
using System.Linq;
using Mono.Cecil.Cil;

namespace TaskGraph.Reading
{
    /// <summary>Instructions that compute and compare.</summary>
    internal sealed class NumberInstructions
    {
        private readonly Machine machine;
        private readonly Comparisons comparisons;

        public NumberInstructions(Machine machine)
        {
            this.machine = machine;
            comparisons = new Comparisons(machine);
        }

        public void AddTo(Acts acts)
        {
            acts.OnFrame(Compute, Code.Add, Code.Sub, Code.Mul, Code.Div, Code.Rem, Code.And, Code.Or, Code.Xor, Code.Shl, Code.Shr, Code.Shr_Un);
            acts.OnFrame(Compute, Code.Add_Ovf, Code.Sub_Ovf, Code.Mul_Ovf, Code.Div_Un, Code.Rem_Un, Code.Add_Ovf_Un, Code.Sub_Ovf_Un, Code.Mul_Ovf_Un);
            acts.OnFrame(frame => Change(frame, it => -it), Code.Neg);
            acts.OnFrame(frame => Change(frame, it => ~it), Code.Not);
            acts.On(state => Compare(state, Comparisons.Equal), Code.Ceq);
            acts.On(state => Compare(state, Comparisons.Less), Code.Clt, Code.Clt_Un);
            acts.On(state => Compare(state, Comparisons.Greater), Code.Cgt);
            // (against null it asks for any object)
            acts.On(state => Compare(state, state.Top.Stack.Last() is NullValue ? Comparisons.Unequal : Comparisons.Greater), Code.Cgt_Un);
        }

        private PathNode Compare(PathState state, string operation)
        {
            List<Value> both = state.Top.Pop(2);
            state.Top.Give(comparisons.Compare(state, operation, both[0], both[1]));
            return null;
        }

        private void Compute(Frame frame)
        {
            List<Value> both = frame.Pop(2);
            long? result = both[0] is Number one && both[1] is Number other ? Result(frame.Instruction.OpCode.Code, one.Amount, other.Amount) : null;
            frame.Push(result.HasValue ? new Number(result.Value) : (Value)machine.Fresh((both[0] as Unknown)?.Name ?? "x"));
        }

        private void Change(Frame frame, Func<long, long> change)
        {
            frame.Push(frame.Pop() is Number it ? new Number(change(it.Amount)) : (Value)machine.Fresh("x"));
        }

        private static long? Result(Code operation, long one, long other)
        {
            switch (operation)
            {
                case Code.Add:
                case Code.Add_Ovf:
                    return (int)(one + other);
                case Code.Sub:
                case Code.Sub_Ovf:
                    return (int)(one - other);
                case Code.Mul:
                case Code.Mul_Ovf:
                    return one * other;
                case Code.And:
                    return one & other;
                case Code.Or:
                    return one | other;
                case Code.Xor:
                    return one ^ other;
                case Code.Div:
                    return other == 0 ? (long?)null : one / other;
                case Code.Rem:
                    return other == 0 ? (long?)null : one % other;
                default:
                    return null;
            }
        }
    }
}
