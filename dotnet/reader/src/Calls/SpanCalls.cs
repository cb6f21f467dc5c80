using System.Collections.Generic;
using System.Linq;

namespace TaskGraph.Reading
{
    /// <summary>Spans, which are followed as the list that they are over, and the buffers that a compiler fills for them.</summary>
    internal sealed class SpanCalls : ICallRule
    {
        private const string Constructor = ".ctor", Buffers = "<PrivateImplementationDetails>", Item = "item";

        private static readonly HashSet<string> Spans = new HashSet<string> { "System.Span`1", "System.ReadOnlySpan`1" };

        private readonly Machine machine;

        public SpanCalls(Machine machine)
        {
            this.machine = machine;
        }

        public bool TryRun(Call call, out PathNode next)
        {
            Value given = Spans.Contains(call.Type) ? OfSpan(call) : OfBuffer(call) ?? OfArray(call);
            bool isMade = given != null && call.Name == Constructor;
            if (isMade)
            {
                machine.Memory.Put(call.State, call.Self, given);
            }
            next = given == null ? null : isMade ? call.Skip() : call.Give(given);
            return given != null;
        }

        /// <summary>The list that a new span is over; null where it isn't known.</summary>
        public Value Made(Call call) => Spans.Contains(call.Type) ? Over(call) : null;

        private Value OfSpan(Call call)
        {
            bool isMade = call.Name == "op_Implicit" || call.Name == Constructor;
            return isMade ? Over(call) : OfList(call);
        }

        private static Value OfList(Call call)
        {
            List<Value> items = call.State.ItemsOf(call.Target);
            return items != null && call.Name == "get_Length" ? new Number(items.Count) : null;
        }

        /// <summary>An array, another span, or a reference to one item.</summary>
        private Value Over(Call call)
        {
            if (call.Arguments.Count != 1)
            {
                return null;
            }
            Value given = machine.Memory.At(call.State, call.Arguments[0]);
            bool isOne = call.Arguments[0] is Address && call.State.ItemsOf(given) == null;
            return isOne ? machine.NewObject(call.State, new[] { given }) : call.State.ItemsOf(given) == null ? null : given;
        }

        private static Value OfArray(Call call)
        {
            bool isWhole = call.Type == "System.MemoryExtensions" && call.Name == "AsSpan" && call.Arguments.Count == 1;
            return isWhole && call.State.ItemsOf(call.Arguments[0]) != null ? call.Arguments[0] : null;
        }

        private Value OfBuffer(Call call)
        {
            if (call.Type != Buffers || call.Arguments.Count == 0)
            {
                return null;
            }
            Value buffer = machine.Memory.ObjectAt(call.State, call.Arguments[0]);
            switch (call.Name)
            {
                case "InlineArrayFirstElementRef":
                    return PlaceIn(buffer, 0);
                case "InlineArrayElementRef":
                    return call.Arguments[1] is Number at ? PlaceIn(buffer, at.Amount) : null;
                case "InlineArrayAsSpan":
                case "InlineArrayAsReadOnlySpan":
                    return call.Arguments[1] is Number count ? Filled(call, buffer, (int)count.Amount) : null;
                default:
                    return null;
            }
        }

        private static Address PlaceIn(Value buffer, long at) => Address.OfField(buffer, Item + at);

        private Value Filled(Call call, Value buffer, int count) =>
            machine.NewObject(call.State, Enumerable.Range(0, count).Select(it => machine.Memory.At(call.State, PlaceIn(buffer, it))));
    }
}
