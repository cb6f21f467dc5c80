using System;
using System.Collections.Generic;
using System.Linq;
using Mono.Cecil;

namespace TaskGraph.Reading
{
    /// <summary>Reads and writes variables, fields and what addresses point to.</summary>
    internal sealed class Memory
    {
        private readonly Machine machine;
        private readonly Captures captures = new Captures();

        // delegates of lambdas that capture nothing, which a compiler keeps
        private readonly Dictionary<string, Value> kept = new Dictionary<string, Value>();

        public Memory(Machine machine)
        {
            this.machine = machine;
        }

        /// <summary>Whether a value is a task or a source, which is followed wherever it goes.</summary>
        public static bool IsFollowed(Value value) => value is TaskValue || value is SourceValue || value is WinnerValue;

        /// <summary>What stands at an address; a value that is none is given back.</summary>
        public Value At(PathState state, Value address)
        {
            if (!(address is Address place))
            {
                return address;
            }
            if (place.Owner == null)
            {
                Frame frame = state.Frames[place.Frame];
                return place.IsArgument ? frame.Arguments[place.Index] : frame.Locals[place.Index];
            }
            HeapObject owner = state.Find(place.Owner);
            if (owner == null)
            {
                return machine.Fresh("x");
            }
            return owner.Fields.TryGetValue(place.Field, out Value value) ? value : new NullValue();
        }

        /// <summary>The object at an address: a struct that nobody has written yet is made.</summary>
        public Value ObjectAt(PathState state, Value address)
        {
            Value found = At(state, address);
            if (!(address is Address) || !(found is NullValue))
            {
                return found;
            }
            ObjectValue made = machine.NewObject(state);
            Put(state, address, made);
            return made;
        }

        public void Put(PathState state, Value address, Value value)
        {
            if (!(address is Address place))
            {
                return;
            }
            if (place.Owner != null)
            {
                HeapObject owner = state.Find(place.Owner);
                if (owner != null)
                {
                    owner.Fields[place.Field] = value;
                }
                return;
            }
            Frame frame = state.Frames[place.Frame];
            (place.IsArgument ? frame.Arguments : frame.Locals)[place.Index] = value;
        }

        /// <summary>The address of a field, which is read first if it is one from outside.</summary>
        public Address AddressOf(PathState state, Value owner, FieldReference field)
        {
            Value found = ObjectAt(state, owner);
            HeapObject target = state.Find(found);
            if (target != null && !target.Fields.ContainsKey(field.Name))
            {
                target.Fields[field.Name] = Types.IsGenerated(field.DeclaringType) ? Types.DefaultOf(field.FieldType) : Load(state, found, field);
            }
            return Address.OfField(found, field.Name);
        }

        public Value Load(PathState state, Value owner, FieldReference field)
        {
            Value found = ObjectAt(state, owner);
            if (found is ObjectValue it)
            {
                return Types.IsGenerated(field.DeclaringType) ? LoadGenerated(state, it, field) : LoadOwn(state, it, field);
            }
            string name = Naming.OfField(field.Name);
            bool isOutside = found is ThrownValue || found is Unknown || found is NullValue;
            return isOutside
                ? machine.Outside.ValueOf("of" + found.Key + field.FullName + "#" + machine.NextId(), name, field.FieldType, state.Where)
                : machine.Fresh(Naming.Identifier(name), field.FieldType);
        }

        public void Store(PathState state, Value owner, FieldReference field, Value value)
        {
            HeapObject target = state.Find(ObjectAt(state, owner));
            if (target == null)
            {
                if (IsFollowed(value))
                {
                    machine.Notes.Add(Assumption.HandedOver, state.Where, "the field " + field.Name);
                }
                return;
            }
            if (!Types.IsGenerated(field.DeclaringType) && !(IsFollowed(value) || value is TokenValue || value is DelegateValue || value is ObjectValue || value is EndedTask))
            {
                // others may write it
                target.Fields.Remove(field.Name);
                return;
            }
            if (!Types.IsGenerated(field.DeclaringType) && (value is TaskValue || value is SourceValue))
            {
                machine.Notes.Add(Assumption.Field, state.Where, field.Name);
            }
            target.Fields[field.Name] = value;
        }

        public Value LoadStatic(PathState state, FieldReference field)
        {
            if (field.Name == "CompletedTask")
            {
                return EndedTask.Plain();
            }
            if (field.Name == "<>9")
            {
                return new Mark(MarkKind.LambdaHolder);
            }
            if (IsKept(field))
            {
                return kept.TryGetValue(field.FullName, out Value value) ? value : new NullValue();
            }
            string name = Naming.OfField(field.Name), id = "static " + field.FullName;
            if (Types.IsTask(field.FieldType) || field.FieldType.FullName.StartsWith("System.Threading.Cancellation", StringComparison.Ordinal))
            {
                return machine.Outside.ValueOf(id, name, field.FieldType, state.Where);
            }
            return Types.IsReadOnly(field)
                ? new Unknown(id, Naming.Identifier(name), field.FieldType)
                : machine.Fresh(Naming.Identifier(name), field.FieldType);
        }

        public void StoreStatic(PathState state, FieldReference field, Value value)
        {
            if (IsKept(field))
            {
                kept[field.FullName] = value;
            }
            else if (Types.IsTask(field.FieldType))
            {
                machine.Notes.Add(Assumption.HandedOver, state.Where, "the static field " + field.Name);
            }
        }

        private static bool IsKept(FieldReference field) =>
            field.Name.Contains("f__am$cache") || field.Name.Contains("f__mg$cache") || field.Name.StartsWith("<>9_", StringComparison.Ordinal)
            || field.DeclaringType.Name.StartsWith("<>O", StringComparison.Ordinal);

        private Value LoadGenerated(PathState state, ObjectValue owner, FieldReference field)
        {
            if (!state.Heap[owner.Id].Fields.TryGetValue(field.Name, out Value value))
            {
                return Types.DefaultOf(field.FieldType);
            }
            if (!Captures.IsCapture(field) || !captures.MayChange(state.Frames[0].Method, field))
            {
                return value;
            }
            string name = Naming.OfField(field.Name);
            if (IsFollowed(value) || Types.IsTask(field.FieldType))
            {
                throw state.Refuse(RefusalCode.Captured, "the captured task " + name + " is assigned in more than one body");
            }
            return machine.Fresh(Naming.Identifier(name), field.FieldType);
        }

        private Value LoadOwn(PathState state, ObjectValue owner, FieldReference field)
        {
            Dictionary<string, Value> fields = state.Heap[owner.Id].Fields;
            if (fields.TryGetValue(field.Name, out Value value))
            {
                return value;
            }
            bool isStable = Types.IsReadOnly(field);
            string id = "field " + owner.Id + field.FullName + (isStable || Types.IsTask(field.FieldType)
                ? ""
                : "#" + machine.NextId());
            value = machine.Outside.ValueOf(id, Naming.OfField(field.Name), field.FieldType, state.Where);
            if (isStable || value is TokenValue || value is SourceValue || value is TaskValue)
            {
                fields[field.Name] = value;
            }
            return value;
        }
    }
}
