using System;
using System.Collections.Generic;
using System.Linq;
using System.Threading.Tasks;
using Mono.Cecil.Cil;

namespace TaskGraph.Reading
{
    /// <summary>Branches, jumps and returns.</summary>
    internal sealed class JumpInstructions
    {
        private readonly Machine machine;
        private readonly Comparisons comparisons;

        public JumpInstructions(Machine machine)
        {
            this.machine = machine;
            comparisons = new Comparisons(machine);
        }

        public void AddTo(Acts acts)
        {
            acts.On(GoTo, Code.Br, Code.Br_S);
            acts.On(state => OnValue(state, true), Code.Brtrue, Code.Brtrue_S);
            acts.On(state => OnValue(state, false), Code.Brfalse, Code.Brfalse_S);
            foreach (string beginning in new[] { "Beq", "Bne", "Bge", "Bgt", "Ble", "Blt" })
            {
                string operation = beginning.Substring(1);
                acts.On(state => OnComparison(state, operation), Acts.Named(beginning));
            }
            acts.On(Switch, Code.Switch);
            acts.On(Return, Code.Ret);
        }

        private int TargetOf(Frame frame) => machine.FlowOf(frame.Method).PlaceOf((Instruction)frame.Instruction.Operand);

        private PathNode GoTo(PathState state)
        {
            state.Top.At = TargetOf(state.Top);
            return null;
        }

        private PathNode OnValue(PathState state, bool isWanted)
        {
            int target = TargetOf(state.Top);
            Value value = state.Top.Pop();
            Value asked = value is WinnerIndex ? comparisons.Compare(state, Comparisons.Unequal, value, new Number(0)) : value;
            return machine.Branches.Jump(state, asked, isWanted, target);
        }

        private PathNode OnComparison(PathState state, string operation)
        {
            int target = TargetOf(state.Top);
            List<Value> both = state.Top.Pop(2);
            return machine.Branches.Jump(state, comparisons.Compare(state, operation, both[0], both[1]), true, target);
        }

        private PathNode Switch(PathState state)
        {
            Frame frame = state.Top;
            List<int> places = machine.FlowOf(frame.Method).Targets(frame.Instruction).ToList();
            Value value = frame.Pop();
            if (!(value is Number number))
            {
                return machine.Branches.OneOf(state, value, places, frame.At + 1);
            }
            long chosen = (uint)(int)number.Amount;
            frame.At = chosen < places.Count ? places[(int)chosen] : frame.At + 1;
            return null;
        }

        private PathNode Return(PathState state)
        {
            Value result = Types.IsVoid(state.Top.Method.ReturnType) ? null : state.Top.Pop();
            if (state.Frames.Count == 1 && state.IsAsync && result is TaskValue task)
            {
                return EndAs(state, task);
            }
            if (state.Frames.Count == 1 && state.IsAsync && result is WinnerValue)
            {
                throw state.Refuse(RefusalCode.Winner, "a body returns the winner of a WhenAny");
            }
            Collection collects = state.Top.Collects;
            state.DropTop();
            if (collects != null)
            {
                machine.Bodies.Collect(state, collects.With(result));
                return null;
            }
            if (state.HasEnded)
            {
                state.Thrown = state.IsAsync ? (result as EndedTask)?.Exception : null;
                return machine.Explorer.EndOf(state);
            }
            if (result != null)
            {
                state.Top.Push(result);
            }
            state.Top.At++;
            return null;
        }

        /// <summary>A body that returns a task ends as that task does: Task.Run and Unwrap see to it.</summary>
        private PathNode EndAs(PathState state, TaskValue value)
        {
            if (value.IsOuter)
            {
                throw state.Refuse(RefusalCode.Outer, "a body returns the outer task of an async body");
            }
            PathNode node = machine.NewNode(NodeKind.Await, state);
            node.Task = value.Task;
            foreach (KeyValuePair<Way, ThrownValue> end in machine.Waits.EndsOf(value.Task, node, isAggregate: false))
            {
                PathState copy = state.Clone();
                copy.Frames.Clear();
                copy.Thrown = end.Value;
                node.Out[end.Key] = machine.Explorer.EndOf(copy);
            }
            return node;
        }
    }
}
