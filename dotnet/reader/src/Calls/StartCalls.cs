using System;
using System.Collections.Generic;
using System.Threading.Tasks;

namespace TaskGraph.Reading
{
    /// <summary>Task.Run, StartNew and the continuations.</summary>
    internal sealed class StartCalls : NamedCalls
    {
        public StartCalls(Machine machine)
            : base(machine)
        {
            On(Start, "Run", "StartNew");
            On(Continue, "ContinueWith");
            On(call => ContinueMany(call, TaskShape.All, "All"), "ContinueWhenAll");
            On(call => ContinueMany(call, TaskShape.Any, "Any"), "ContinueWhenAny");
        }

        protected override bool Covers(Call call) => TaskTypes.Has(call) && (call.Name != "Run" || call.Type == Types.Tasks + "Task");

        private PathNode Start(Call call)
        {
            bool isRun = call.Name == "Run";
            StartArguments given = ArgumentsOf(call, 0, isContinuation: false);
            if (isRun)
            {
                given.Options = new List<string> { "DenyChildAttach" };
            }
            return Machine.Bodies.Start(call.State, given, null, given.WithState(null), isRun);
        }

        private PathNode Continue(Call call)
        {
            if (!(call.Target is TaskValue value))
            {
                throw call.Refuse(RefusalCode.Continuation, "a continuation of a task that isn't followed (" + Described(call.Target) + ")");
            }
            if (value.IsOuter)
            {
                throw call.Refuse(RefusalCode.Outer, "the outer task of an async body is continued without Unwrap: it ends at the body's first await");
            }
            StartArguments given = ArgumentsOf(call, 0, isContinuation: true);
            MarkKind kind = value.Task.Shape == TaskShape.Any ? MarkKind.AnySubject : MarkKind.Subject;
            return Machine.Bodies.Start(call.State, given, value.Task, given.WithState(new Mark(kind, new TaskValue(value.Task))), false);
        }

        private PathNode ContinueMany(Call call, TaskShape shape, string name)
        {
            PathTask join = Machine.NewTask(shape, name, call.Where);
            join.Of = shape == TaskShape.Any
                ? Machine.Bodies.TasksOfAny(call.State, new[] { call.Arguments[0] })
                : Machine.Bodies.TasksIn(call.State, new[] { call.Arguments[0] });
            StartArguments given = ArgumentsOf(call, 1, isContinuation: true);
            Value subject = shape == TaskShape.All
                ? new Mark(MarkKind.Subjects)
                : new Mark(MarkKind.Subject, new TaskValue(join));
            PathNode node = Machine.NewNode(NodeKind.Spawn, call.State);
            node.Task = join;
            PathState copy = call.State.Clone();
            node.Out[Way.Ok] = Machine.Explorer.Follow(copy, Machine.Bodies.Start(copy, given, join, given.WithState(subject), false));
            return node;
        }

        private static string Described(Value value) =>
            value is WinnerValue ? "the winner of a WhenAny" : (value as Unknown)?.Name ?? value.Key;

        /// <summary>The delegate and what stands behind it, in any order.</summary>
        private StartArguments ArgumentsOf(Call call, int at, bool isContinuation)
        {
            if (!(call.Arguments[at] is DelegateValue body))
            {
                throw call.Refuse(RefusalCode.Delegate, call.Name + " of a delegate that isn't known");
            }
            var given = new StartArguments(body, Naming.OfVariable(call.Frame) ?? Naming.OfBody(body));
            for (int argument = at + 1; argument < call.Arguments.Count; argument++)
            {
                Take(call, given, argument, argument == at + 1, isContinuation);
            }
            return given;
        }

        private void Take(Call call, StartArguments given, int argument, bool mayBeState, bool isContinuation)
        {
            Value value = call.Arguments[argument];
            string type = call.Method.Parameters[argument].ParameterType.Name;
            if (value is TokenValue token)
            {
                given.Token = token.Token;
            }
            else if (type == "TaskCreationOptions" || type == "TaskContinuationOptions")
            {
                given.Options = TaskOptions.Of(call, value, isContinuation);
            }
            else if (type == "TaskScheduler")
            {
                if (!(value is Unknown scheduler && scheduler.Name == "Default"))
                {
                    Machine.Notes.Add(Assumption.Scheduler, call.Where);
                }
            }
            else if (mayBeState)
            {
                given.State = value;
            }
        }
    }
}
