using System;
using System.Linq;
using Mono.Cecil;

namespace TaskGraph.Reading
{
    /// <summary>The builders of async methods. A state machine runs as it is, and each await in it finds its task
    /// ended.</summary>
    internal sealed class BuilderCalls : NamedCalls
    {
        private const string Void = "void";

        public BuilderCalls(Machine machine)
            : base(machine)
        {
            On(call => call.Give(new Mark(MarkKind.Builder, detail: IsVoid(call) ? Void : "")), "Create");
            On(Start, "Start");
            On(call => End(call, new EndedTask(call.Arguments.FirstOrDefault() ?? new NullValue(), null)), "SetResult");
            On(call => End(call, new EndedTask(new NullValue(), call.Arguments[0] as ThrownValue ?? ThrownValue.Unnamed())), "SetException");
            On(GetTask, "get_Task");
            On(call => call.Skip(), "SetStateMachine");
            On(Refuse, "AwaitOnCompleted", "AwaitUnsafeOnCompleted", "MoveNext", "Complete");
        }

        protected override bool Covers(Call call) =>
            call.Type.StartsWith("System.Runtime.CompilerServices.Async", StringComparison.Ordinal) && call.Type.Contains("MethodBuilder");

        private static bool IsVoid(Call call) => call.Type.Contains("Void");

        private static PathNode Refuse(Call call) =>
            throw call.Refuse(RefusalCode.Await, "an await that isn't read (" + call.Name + ")");

        private static PathNode GetTaskOf(Call call, Value builder)
        {
            bool hasEnded = builder is Mark mark && mark.Kind == MarkKind.EndedBuilder;
            return call.Give(hasEnded ? ((Mark)builder).About : EndedTask.Plain());
        }

        private PathNode Start(Call call)
        {
            Value stateMachine = Machine.Memory.ObjectAt(call.State, call.Arguments[0]);
            TypeDefinition type = Types.Find(((GenericInstanceMethod)call.Method).GenericArguments[0]);
            if (IsVoid(call))
            {
                Machine.Notes.Add(Assumption.AsyncVoid, call.Where);
            }
            // (the code goes on behind the call where MoveNext returns)
            Machine.Enter(call.State, Types.MoveNextOf(type), new[] { stateMachine });
            call.State.IsAsync |= call.State.Frames.Count <= 2;
            return null;
        }

        private PathNode End(Call call, EndedTask task)
        {
            Machine.Memory.Put(call.State, call.Self, new Mark(MarkKind.EndedBuilder, task));
            return call.Skip();
        }

        private PathNode GetTask(Call call) => GetTaskOf(call, Machine.Memory.At(call.State, call.Self));
    }
}
