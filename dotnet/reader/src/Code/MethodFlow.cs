using System;
using System.Collections.Generic;
using System.Linq;
using Mono.Cecil;
using Mono.Cecil.Cil;

namespace TaskGraph.Reading
{
    /// <summary>The ways of control through a method's code.</summary>
    internal sealed class MethodFlow
    {
        private readonly Dictionary<Instruction, int> places = new Dictionary<Instruction, int>();
        private Liveness liveness;
        private Circles circles;

        public MethodFlow(MethodDefinition method)
        {
            Method = method;
            Code = method.Body.Instructions;
            Handlers = method.Body.ExceptionHandlers;
            for (int at = 0; at < Code.Count; at++)
            {
                places[Code[at]] = at;
            }
            HasRethrow = Code.Any(it => it.OpCode.Code == Mono.Cecil.Cil.Code.Rethrow);
        }

        public MethodDefinition Method { get; }

        public IList<Instruction> Code { get; }

        public IList<ExceptionHandler> Handlers { get; }

        public bool HasRethrow { get; }

        /// <summary>Which variables are read later.</summary>
        public Liveness Liveness => liveness ?? (liveness = new Liveness(this));

        /// <summary>The loops.</summary>
        public Circles Circles => circles ?? (circles = new Circles(this));

        /// <summary>The place of an instruction; the end of the code for none.</summary>
        public int PlaceOf(Instruction instruction) => instruction == null ? Code.Count : places[instruction];

        /// <summary>Whether an instruction stands in the try block of a handler.</summary>
        public bool Covers(ExceptionHandler handler, int at)
        {
            int offset = Code[Math.Min(at, Code.Count - 1)].Offset;
            return offset >= handler.TryStart.Offset && offset < handler.TryEnd.Offset;
        }

        /// <summary>Where an exception at this place may go on in this method: the handlers and filters around it.</summary>
        public IEnumerable<int> Around(int at)
        {
            foreach (ExceptionHandler handler in Handlers.Where(it => Covers(it, at)))
            {
                yield return PlaceOf(handler.HandlerStart);
                if (handler.FilterStart != null)
                {
                    yield return PlaceOf(handler.FilterStart);
                }
            }
        }

        /// <summary>The places that may follow an instruction where nothing is thrown.</summary>
        public IEnumerable<int> Next(int at)
        {
            Instruction instruction = Code[at];
            switch (instruction.OpCode.FlowControl)
            {
                case FlowControl.Branch:
                    return new[] { places[(Instruction)instruction.Operand] };
                case FlowControl.Cond_Branch:
                    return Targets(instruction).Concat(new[] { at + 1 });
                case FlowControl.Return:
                    return IsEndOfBlock(instruction) ? BehindBlock(at) : Enumerable.Empty<int>();
                case FlowControl.Throw:
                    return Enumerable.Empty<int>();
                default:
                    return new[] { Math.Min(at + 1, Code.Count) };
            }
        }

        /// <summary>The places to which a branch or a switch goes.</summary>
        public IEnumerable<int> Targets(Instruction branch) =>
            branch.Operand is Instruction[] many ? many.Select(it => places[it]) : new[] { places[(Instruction)branch.Operand] };

        private static bool IsEndOfBlock(Instruction instruction) =>
            instruction.OpCode.Code == Mono.Cecil.Cil.Code.Endfinally || instruction.OpCode.Code == Mono.Cecil.Cil.Code.Endfilter;

        private IEnumerable<int> BehindBlock(int at)
        {
            IEnumerable<int> behind = Handlers.Where(it => it.HandlerEnd != null).Select(it => places[it.HandlerEnd]);
            return at + 1 < Code.Count ? new[] { at + 1 }.Concat(behind) : behind;
        }
    }
}
