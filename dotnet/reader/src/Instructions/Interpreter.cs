using System;
using System.Linq;
using Mono.Cecil.Cil;

namespace TaskGraph.Reading
{
    /// <summary>Runs the instructions of a path up to its next effect.</summary>
    internal sealed class Interpreter
    {
        private const int MostSteps = 300000;

        private readonly Machine machine;
        private readonly Acts acts = new Acts();

        public Interpreter(Machine machine)
        {
            this.machine = machine;
            new PlainInstructions(machine).AddTo(acts);
            new VariableInstructions().AddTo(acts);
            new NumberInstructions(machine).AddTo(acts);
            new JumpInstructions(machine).AddTo(acts);
            new ExceptionInstructions(machine).AddTo(acts);
            new FieldInstructions(machine).AddTo(acts);
            new ArrayInstructions(machine).AddTo(acts);
            new CallInstructions(machine).AddTo(acts);
        }

        /// <summary>How many instructions were run, in all attempts.</summary>
        public int Steps { get; set; }

        /// <summary>The next effect of a path.</summary>
        public PathNode Run(PathState state)
        {
            PathNode next = null;
            while (next == null)
            {
                next = state.HasEnded ? machine.Explorer.EndOf(state) : Step(state);
            }
            return next;
        }

        private PathNode Step(PathState state)
        {
            if (++Steps > MostSteps)
            {
                throw state.Refuse(RefusalCode.Size, "more than " + MostSteps + " instructions on the paths through it");
            }
            Frame frame = state.Top;
            if (frame.At >= frame.Method.Body.Instructions.Count)
            {
                throw state.Refuse(RefusalCode.Instruction, "the end of the code is passed");
            }
            if (machine.Circles.Contains(LoopFound.PlaceOf(frame.Method, frame.At)))
            {
                return machine.Loops.AsJob(state);
            }
            Func<PathState, PathNode> act = acts.Find(frame.Instruction.OpCode.Code);
            if (act == null)
            {
                throw state.Refuse(RefusalCode.Instruction, "the instruction " + frame.Instruction.OpCode + " isn't read");
            }
            return act(state);
        }
    }
}
