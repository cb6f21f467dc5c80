using System;
using System.Collections.Generic;
using Mono.Cecil;

namespace TaskGraph.Reading
{
    /// <summary>Values that come from outside of what is read: parameters, fields, and what jobs give.</summary>
    internal sealed class Outside
    {
        private const string Enumerator = "enum";
        private const string Made = "box";

        private readonly Machine machine;
        private readonly Dictionary<string, PathToken> tokens = new Dictionary<string, PathToken>();
        private readonly Dictionary<string, TaskValue> tasks = new Dictionary<string, TaskValue>();

        public Outside(Machine machine)
        {
            this.machine = machine;
        }

        /// <summary>Whether a value is the enumerator of a list that isn't followed.</summary>
        public static bool IsEnumerator(Unknown value) => value.Id.StartsWith(Enumerator, StringComparison.Ordinal);

        /// <summary>Whether a value was made by the code, and so isn't null.</summary>
        public static bool IsMade(Unknown value) => value.Type != null && value.Id.StartsWith(Made, StringComparison.Ordinal);

        /// <summary>The enumerator of a list that isn't followed.</summary>
        public Unknown NewEnumerator(TypeReference type) => new Unknown(Enumerator + machine.NextId(), "list", type);

        /// <summary>An object that the code makes and that isn't followed.</summary>
        public Unknown NewMade(string name, TypeReference type) =>
            new Unknown(Made + machine.NextId(), Naming.Identifier(name), type);

        /// <summary>The value of this id: the same token or task each time.</summary>
        public Value ValueOf(string id, string name, TypeReference type, string place)
        {
            if (Types.IsToken(type))
            {
                return new TokenValue(TokenOf(id, name, place));
            }
            if (type.FullName == Types.Source)
            {
                return new SourceValue(TokenOf(id, name, place));
            }
            return Types.IsTask(type) ? (Value)TaskOf(id, name, place) : new Unknown(id, Naming.Identifier(name), type);
        }

        public PathToken TokenOf(string id, string name, string place)
        {
            if (!tokens.TryGetValue(id, out PathToken token))
            {
                tokens[id] = token = machine.NewToken(name, place);
            }
            return token;
        }

        private TaskValue TaskOf(string id, string name, string place)
        {
            if (!tasks.TryGetValue(id, out TaskValue value))
            {
                PathTask task = machine.NewTask(TaskShape.Job, Naming.OfTask(name), place);
                task.Token = machine.NewToken(name + "_canceled", place, isOwn: true);
                task.IsOutside = true;
                machine.Notes.Add(Assumption.Outside, place, task.Name);
                tasks[id] = value = new TaskValue(task);
            }
            return value;
        }
    }
}
