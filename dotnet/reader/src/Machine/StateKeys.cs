using System;
using System.Collections.Generic;
using System.Linq;
using System.Text;

namespace TaskGraph.Reading
{
    /// <summary>The texts by which states are compared. What is never read again makes no difference.</summary>
    internal sealed class StateKeys
    {
        private readonly Machine machine;

        public StateKeys(Machine machine)
        {
            this.machine = machine;
        }

        public string Of(PathState state)
        {
            var key = new StringBuilder();
            var held = new Stack<Value>();
            foreach (Frame frame in state.Frames)
            {
                Write(frame, key, held);
            }
            WriteObjects(state, key, held);
            string written = key.ToString();
            foreach (var answer in state.Assumed.OrderBy(it => it.Key, StringComparer.Ordinal))
            {
                if (written.Contains("?" + answer.Key) || answer.Key.StartsWith("arg ", StringComparison.Ordinal))
                {
                    key.Append(" ").Append(answer.Key).Append(answer.Value);
                }
            }
            foreach (var end in state.Known.OrderBy(it => it.Key).Where(it => written.Contains("=t" + it.Key + " ")))
            {
                key.Append(" ").Append(end.Key).Append(end.Value);
            }
            return key.ToString();
        }

        private void Write(Frame frame, StringBuilder key, Stack<Value> held)
        {
            MethodFlow flow = machine.FlowOf(frame.Method);
            HashSet<string> live = flow.Liveness.From(frame.At, frame.Pending);
            key.Append("|").Append(LoopFound.PlaceOf(frame.Method, frame.At));
            for (int local = 0; local < frame.Locals.Length; local++)
            {
                if (live.Contains(Liveness.Local(local)))
                {
                    Put(" l" + local, frame.Locals[local], key, held);
                }
            }
            for (int argument = 0; argument < frame.Arguments.Length; argument++)
            {
                Put(" a" + argument, frame.Arguments[argument], key, held);
            }
            frame.Stack.ForEach(it => Put(" s", it, key, held));
            frame.Pending.ForEach(it => key.Append(it.Key));
            if (frame.Collects != null)
            {
                key.Append(frame.Collects.Key);
                frame.Collects.Held.ToList().ForEach(held.Push);
            }
            if (frame.Caught != null && flow.HasRethrow)
            {
                key.Append(" c").Append(frame.Caught.Key);
            }
            key.Append(" ");
        }

        private static void Put(string name, Value value, StringBuilder key, Stack<Value> held)
        {
            key.Append(name).Append("=").Append(value.Key);
            held.Push(value);
        }

        /// <summary>The objects that can be reached.</summary>
        private void WriteObjects(PathState state, StringBuilder key, Stack<Value> held)
        {
            var seen = new HashSet<int>();
            while (held.Count > 0)
            {
                Value value = held.Pop();
                if (value is ObjectValue it && seen.Add(it.Id))
                {
                    Write(state, it, key, held);
                }
                Value inner = (value as DelegateValue)?.Target ?? (value as Address)?.Owner ?? (value as AwaiterValue)?.Awaited ?? (value as Mark)?.About;
                if (inner != null)
                {
                    held.Push(inner);
                }
            }
        }

        private void Write(PathState state, ObjectValue value, StringBuilder key, Stack<Value> held)
        {
            HeapObject found = state.Heap[value.Id];
            Func<string, bool> isRead = FieldsRead(state, value);
            foreach (var field in found.Fields.OrderBy(it => it.Key, StringComparer.Ordinal).Where(it => isRead(it.Key)))
            {
                Put(" " + value.Id + "." + field.Key, field.Value, key, held);
            }
            if (found.Position != null)
            {
                key.Append(" ").Append(value.Id).Append("@").Append(found.Position);
            }
            foreach (Value item in found.Items ?? Enumerable.Empty<Value>())
            {
                Put(" " + value.Id, item, key, held);
            }
            key.Append(" ");
        }

        /// <summary>Which fields of an object count: of a state machine that runs, those that it reads later.</summary>
        private Func<string, bool> FieldsRead(PathState state, ObjectValue value)
        {
            Frame running = state.Frames.FirstOrDefault(
                it => it.Method.Name == "MoveNext" && it.Arguments.Length > 0 && it.Arguments[0].Key == value.Key);
            if (running == null)
            {
                return _ => true;
            }
            Liveness liveness = machine.FlowOf(running.Method).Liveness;
            HashSet<string> live = liveness.From(running.At, running.Pending);
            return field => Liveness.Has(live, field) || !liveness.Knows(field);
        }
    }
}
