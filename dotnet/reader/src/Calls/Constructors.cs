using System;
using System.Collections.Generic;
using System.Linq;
using Mono.Cecil;

namespace TaskGraph.Reading
{
    /// <summary>Constructors.</summary>
    internal sealed class Constructors
    {
        private const string ExceptionEnd = "Exception";

        private static readonly HashSet<string> Lists = new HashSet<string>
        {
            "System.Collections.Generic.List`1", "System.Collections.Generic.HashSet`1",
        };

        private readonly Machine machine;

        public Constructors(Machine machine)
        {
            this.machine = machine;
        }

        public PathNode Run(Call call)
        {
            if (call.Arguments.Count == 2 && call.Arguments[1] is MethodValue method)
            {
                return call.Give(new DelegateValue(method.Method, call.Arguments[0]));
            }
            if (CompletionCalls.Has(call.Type))
            {
                return NewCompletion(call);
            }
            if (call.Type == Types.Tasks + "Task" || call.Type == Types.Tasks + "Task`1")
            {
                throw call.Refuse(RefusalCode.ColdTask, "a task that is made here and started elsewhere");
            }
            Value known = Known(call) ?? new SpanCalls(machine).Made(call);
            if (known != null)
            {
                return call.Give(known);
            }
            foreach (Value value in call.Arguments.Where(Memory.IsFollowed))
            {
                machine.Notes.Add(Assumption.HandedOver, call.Where, "new " + call.Method.DeclaringType.Name);
            }
            // any other constructor is a step that may throw, as each call that isn't followed
            return LibraryCalls.IsPure(call.Method)
                ? call.Give(machine.Outside.NewMade(call.Method.DeclaringType.Name, call.Method.DeclaringType))
                : machine.Jobs.Run(call, call.Method.DeclaringType.Name);
        }

        /// <summary>An object of which the reader knows what it is; null for another one.</summary>
        private Value Known(Call call)
        {
            TypeReference type = call.Method.DeclaringType;
            if (call.Type == Types.Source)
            {
                return new SourceValue(machine.NewToken(Naming.OfVariable(call.Frame) ?? "token", call.Where));
            }
            if (call.Type == Types.Token)
            {
                return new TokenValue(null);
            }
            if (Types.IsTask(type))
            {
                return OfValueTask(call);
            }
            if (Types.IsException(type))
            {
                return new ThrownValue(LabelOf(type), Exceptions.IsCancellation(type), type, ThrownValue.Here);
            }
            if (Lists.Contains(call.Type))
            {
                return NewList(call);
            }
            return Types.IsGenerated(type) ? machine.NewObject(call.State) : null;
        }

        private static Value OfValueTask(Call call)
        {
            Value given = call.Arguments.FirstOrDefault() ?? new NullValue();
            return given is TaskValue ? given : new EndedTask(given, null);
        }

        private static string LabelOf(TypeReference type)
        {
            bool isCut = type.Name.EndsWith(ExceptionEnd, StringComparison.Ordinal) && type.Name.Length > ExceptionEnd.Length;
            return Naming.Identifier(isCut ? type.Name.Substring(0, type.Name.Length - ExceptionEnd.Length) : type.Name);
        }

        private Value NewList(Call call)
        {
            if (call.Arguments.Count == 0 || call.Arguments[0] is Number)
            {
                return machine.NewObject(call.State, new Value[0]);
            }
            List<Value> items = call.State.ItemsOf(call.Arguments[0]);
            return items == null ? machine.Fresh("list", call.Method.DeclaringType) : (Value)machine.NewObject(call.State, items);
        }

        private PathNode NewCompletion(Call call)
        {
            PathTask task = machine.NewTask(TaskShape.Job, Naming.OfTask(Naming.OfVariable(call.Frame) ?? "completion"), call.Where);
            task.Token = machine.NewToken(task.Name + "_canceled", call.Where, isOwn: true);
            machine.Notes.Add(Assumption.Completion, call.Where, task.Name);
            return machine.Bodies.Make(call.State, task, new Mark(MarkKind.Completion, new TaskValue(task)));
        }
    }
}
