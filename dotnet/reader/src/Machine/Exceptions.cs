using System;
using Mono.Cecil;
using Mono.Cecil.Cil;

namespace TaskGraph.Reading
{
    /// <summary>Leads exceptions to the handlers of the calls that are followed.</summary>
    internal sealed class Exceptions
    {
        private const string Canceled = "System.OperationCanceledException";
        private const string TaskCanceled = "System.Threading.Tasks.TaskCanceledException";

        private readonly Machine machine;

        public Exceptions(Machine machine)
        {
            this.machine = machine;
        }

        public static bool IsCancellation(TypeReference type) => type.FullName == Canceled || type.FullName == TaskCanceled;

        /// <summary>What a token throws that is looked at.</summary>
        public static string LabelOf(PathToken token) => "token " + token.Id;

        /// <summary>Throws at the place where the path stands. Null: the path goes on in a handler.</summary>
        public PathNode Throw(PathState state, ThrownValue thrown) => Dispatch(state, thrown, 0);

        /// <summary>The same, from the handler of this number on.</summary>
        public PathNode Dispatch(PathState state, ThrownValue thrown, int first)
        {
            while (!state.HasEnded)
            {
                state.Top.Stack.Clear();
                MethodFlow flow = machine.FlowOf(state.Top.Method);
                for (int handler = first; handler < flow.Handlers.Count; handler++)
                {
                    if (flow.Covers(flow.Handlers[handler], state.Top.At) && TryEnter(state, flow, thrown, handler, out PathNode next))
                    {
                        return next;
                    }
                }
                state.DropTop();
                first = 0;
            }
            state.Thrown = thrown;
            return machine.Explorer.EndOf(state);
        }

        /// <summary>Whether a catch of this type takes it; null where that isn't known.</summary>
        public bool? Matches(ThrownValue thrown, TypeReference type, Func<string> place)
        {
            if (type.FullName == "System.Exception" || type.FullName == "System.Object")
            {
                return true;
            }
            if (thrown.IsCancellation)
            {
                return type.FullName == TaskCanceled
                    ? (bool?)null
                    : type.FullName == Canceled || type.FullName == "System.SystemException";
            }
            if (IsCancellation(type))
            {
                machine.Notes.Add(Assumption.Cancellations, place());
                return false;
            }
            return Types.DerivesFrom(thrown.Type, type);
        }

        /// <summary>Leaves protected blocks for a place in the same method: finally blocks on the way run first.</summary>
        public void Leave(PathState state, int target) => Leave(state, target, state.Top.At, 0);

        /// <summary>The same from a place, and from the handler of this number on.</summary>
        public void Leave(PathState state, int target, int from, int first)
        {
            MethodFlow flow = machine.FlowOf(state.Top.Method);
            state.Top.At = target;
            for (int number = first; number < flow.Handlers.Count; number++)
            {
                ExceptionHandler handler = flow.Handlers[number];
                bool isLeft = flow.Covers(handler, from) && !(target < flow.Code.Count && flow.Covers(handler, target));
                if (handler.HandlerType == ExceptionHandlerType.Finally && isLeft)
                {
                    state.Top.Pending.Add(Pending.OfJump(target, from, number));
                    state.Top.At = flow.PlaceOf(handler.HandlerStart);
                    return;
                }
            }
        }

        /// <summary>Goes into a handler, if it takes the exception or may take it.</summary>
        private bool TryEnter(PathState state, MethodFlow flow, ThrownValue thrown, int number, out PathNode next)
        {
            ExceptionHandler handler = flow.Handlers[number];
            int start = flow.PlaceOf(handler.HandlerStart);
            next = null;
            switch (handler.HandlerType)
            {
                case ExceptionHandlerType.Finally:
                case ExceptionHandlerType.Fault:
                    state.Top.Pending.Add(Pending.OfThrow(thrown, state.Top.At, number));
                    state.Top.At = start;
                    return true;
                case ExceptionHandlerType.Filter:
                    machine.Notes.Add(Assumption.Filter, state.Where);
                    state.Top.Pending.Add(Pending.OfThrow(thrown, state.Top.At, number));
                    state.Top.At = flow.PlaceOf(handler.FilterStart);
                    state.Top.Push(thrown);
                    return true;
                default:
                    return TryCatch(state, thrown, handler.CatchType, start, number, out next);
            }
        }

        private bool TryCatch(PathState state, ThrownValue thrown, TypeReference type, int start, int number, out PathNode next)
        {
            next = null;
            bool? isCaught = Matches(thrown, type, () => state.Where);
            if (isCaught == true)
            {
                Catch(state, thrown, start);
            }
            if (isCaught == null)
            {
                Unknown isOfType = machine.Fresh(Naming.Identifier("is_" + type.Name));
                next = machine.Branches.Both(state, isOfType, it => Catch(it, thrown, start), it => Dispatch(it, thrown, number + 1));
            }
            return isCaught != false;
        }

        /// <summary>Goes on in a catch block. Gives null, as the path goes on.</summary>
        public static PathNode Catch(PathState state, ThrownValue thrown, int start)
        {
            Frame frame = state.Top;
            frame.Stack.Clear();
            frame.Caught = thrown;
            frame.At = start;
            frame.Push(thrown);
            return null;
        }
    }
}
