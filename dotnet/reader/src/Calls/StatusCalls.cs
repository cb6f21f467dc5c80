using System;
using System.Threading.Tasks;

namespace TaskGraph.Reading
{
    /// <summary>How a task ended, and what it threw.</summary>
    internal sealed class StatusCalls : NamedCalls
    {
        public StatusCalls(Machine machine)
            : base(machine)
        {
            On(call => Ask(call, Final.Faulted), "get_IsFaulted");
            On(call => Ask(call, Final.Canceled), "get_IsCanceled");
            On(call => Ask(call, Final.RanToCompletion), "get_IsCompletedSuccessfully");
            On(HasEnded, "get_IsCompleted");
            On(Status, "get_Status");
            On(Exception, "get_Exception");
        }

        protected override bool Covers(Call call) => TaskTypes.Has(call);

        private static bool Is(Call call, MarkKind kind) => call.Target is Mark mark && mark.Kind == kind;

        private PathNode Ask(Call call, Final final)
        {
            if (Is(call, MarkKind.Subject))
            {
                return call.Give(Mark.EndsAs(final));
            }
            Final? end = EndOf(call);
            return end.HasValue ? call.Give(Number.Of(end == final)) : NotKnown(call);
        }

        private PathNode HasEnded(Call call)
        {
            bool isKnown = Is(call, MarkKind.Subject) || EndOf(call) != null;
            return isKnown ? call.Give(Number.Of(true)) : NotKnown(call);
        }

        private PathNode Status(Call call)
        {
            if (Is(call, MarkKind.Subject))
            {
                return call.Give(new Mark(MarkKind.Status));
            }
            Final? end = EndOf(call);
            return end.HasValue
                ? call.Give(new Number((long)(TaskStatus)Enum.Parse(typeof(TaskStatus), end.Value.ToString())))
                : NotKnown(call);
        }

        private PathNode Exception(Call call)
        {
            if (Is(call, MarkKind.Subject))
            {
                return OfSubject(call);
            }
            if (call.Target is EndedTask ended && ended.Exception != null)
            {
                return call.Give(ended.Exception);
            }
            Final? end = EndOf(call);
            if (end.HasValue && end != Final.Faulted)
            {
                return call.Give(new NullValue());
            }
            Machine.Notes.Add(Assumption.ReadElsewhere, call.Where, NameOf(call));
            return end == null ? NotKnown(call) : call.Give(Machine.Outside.NewMade("Exception", call.Method.ReturnType));
        }

        private PathNode OfSubject(Call call)
        {
            if (call.State.Assumed.TryGetValue(Branches.AskedOfSubject(Final.Faulted), out bool isFaulted) && !isFaulted)
            {
                return call.Give(new NullValue());
            }
            PathNode node = Machine.NewNode(NodeKind.Observe, call.State);
            Unknown exception = Machine.Outside.NewMade("Exception", call.Method.ReturnType);
            return Machine.Explorer.Fork(call.State, node, new Choice(Way.Ok, it => it.Top.Give(exception)));
        }

        /// <summary>How the task ended, where the path knows it.</summary>
        private static Final? EndOf(Call call)
        {
            if (Is(call, MarkKind.AnySubject))
            {
                return Final.RanToCompletion;
            }
            if (call.Target is EndedTask ended)
            {
                return ended.Exception == null ? Final.RanToCompletion : ended.Exception.IsCancellation ? Final.Canceled : Final.Faulted;
            }
            bool isKnown = call.Target is TaskValue value && call.State.Known.ContainsKey(value.Task.Id);
            return isKnown ? call.State.Known[((TaskValue)call.Target).Task.Id] : (Final?)null;
        }

        private PathNode NotKnown(Call call)
        {
            string what = call.Name.Substring("get_".Length);
            Machine.Notes.Add(Assumption.Status, call.Where, what + " of " + NameOf(call));
            return call.Give(Machine.Fresh(Naming.Identifier(NameOf(call) + "_" + what)));
        }

        private static string NameOf(Call call) => (call.Target as TaskValue)?.Task.Name ?? "winner";
    }
}
