using System.Linq;

namespace TaskGraph.Reading
{
    /// <summary>Tasks that have ended, end by time, or end as another one does.</summary>
    internal sealed class TaskCalls : NamedCalls
    {
        public TaskCalls(Machine machine)
            : base(machine)
        {
            On(call => call.Give(new Mark(MarkKind.Factory)), "get_Factory");
            On(call => call.Give(EndedTask.Plain()), "get_CompletedTask", "Yield");
            On(call => call.Give(new EndedTask(call.Arguments[0], null)), "FromResult");
            On(call => call.Give(Ended(call.Arguments[0] as ThrownValue ?? ThrownValue.Unnamed())), "FromException");
            On(call => call.Give(Ended(new ThrownValue("canceled", true, null, ThrownValue.Here))), "FromCanceled");
            On(call => call.Give(call.Target), "AsTask", "Preserve");
            On(call => call.Skip(), "Dispose");
            On(call => call.Give(Machine.Fresh(call.Name)), "get_Id", "get_CurrentId", "get_AsyncState");
            On(Delay, "Delay");
            On(Unwrap, "Unwrap");
            On(WaitAsync, "WaitAsync");
        }

        protected override bool Covers(Call call) => TaskTypes.Has(call);

        private static EndedTask Ended(ThrownValue thrown) => new EndedTask(new NullValue(), thrown);

        private PathNode Delay(Call call)
        {
            string name = Naming.OfVariable(call.Frame);
            PathTask task = Machine.NewTask(TaskShape.Job, name == null ? "Delay" : Naming.OfTask(name), call.Where);
            task.IsSafe = true;
            task.Token = call.Arguments.OfType<TokenValue>().Select(it => it.Token).FirstOrDefault();
            return Machine.Bodies.Make(call.State, task);
        }

        private static PathNode Unwrap(Call call)
        {
            if (!(call.Arguments[0] is TaskValue value))
            {
                throw call.Refuse(RefusalCode.Unwrap, "an Unwrap of a task that isn't followed");
            }
            return call.Give(new TaskValue(value.Task));
        }

        /// <summary>It ends as its task does, or before it by a token or the time: in each way, at any moment.</summary>
        private PathNode WaitAsync(Call call)
        {
            if (call.Target is EndedTask)
            {
                return call.Give(call.Target);
            }
            if (!(call.Target is TaskValue value))
            {
                throw call.Refuse(RefusalCode.Task, "WaitAsync of a task that isn't followed");
            }
            string name = Naming.OfVariable(call.Frame) ?? value.Task.Name + "_or_stop";
            PathTask task = Machine.NewTask(TaskShape.Job, Naming.OfTask(name), call.Where);
            task.Token = Machine.NewToken(task.Name + "_canceled", call.Where, isOwn: true);
            Machine.Notes.Add(Assumption.Completion, call.Where, task.Name);
            return Machine.Bodies.Make(call.State, task);
        }
    }
}
