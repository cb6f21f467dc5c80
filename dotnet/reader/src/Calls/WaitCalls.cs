using System;
using System.Threading.Tasks;

namespace TaskGraph.Reading
{
    /// <summary>Waits that block a thread.</summary>
    internal sealed class WaitCalls : NamedCalls
    {
        private const int NobodyWon = -1;

        public WaitCalls(Machine machine)
            : base(machine)
        {
            On(Wait, "Wait", "get_Result");
            On(WaitAll, "WaitAll");
            On(WaitAny, "WaitAny");
        }

        protected override bool Covers(Call call) => TaskTypes.Has(call);

        private PathNode Wait(Call call)
        {
            bool isOfResult = call.Name == "get_Result";
            if (call.Target is Mark subject)
            {
                return OnSubject(call, subject, isOfResult);
            }
            NoteBlocking(call, (call.Target as TaskValue)?.Task);
            var result = new WaitResult(call.HasResult, isOfResult ? null : Number.Of(true));
            return Limited(call, Number.Of(false), it => Machine.Waits.Await(it, it.Target, result, isAggregate: true));
        }

        private PathNode OnSubject(Call call, Mark subject, bool isOfResult)
        {
            if (call.Arguments.Count > 0)
            {
                throw call.Refuse(RefusalCode.Wait, "Wait of a task that has ended, with a time or a token");
            }
            return subject.Kind == MarkKind.AnySubject
                ? call.GiveIfAny(new Mark(MarkKind.Subject, subject.About))
                : Machine.Waits.OnSubject(call, isOfResult);
        }

        private PathNode WaitAll(Call call)
        {
            PathTask join = Machine.NewTask(TaskShape.All, call.Name, call.Where);
            join.Of = Machine.Bodies.TasksIn(call.State, new[] { call.Arguments[0] });
            return Join(call, join, Number.Of(true), Number.Of(false));
        }

        private PathNode WaitAny(Call call)
        {
            PathTask join = Machine.NewTask(TaskShape.Any, call.Name, call.Where);
            join.Of = Machine.Bodies.TasksOfAny(call.State, new[] { call.Arguments[0] });
            return Join(call, join, new WinnerIndex(join), new Number(NobodyWon));
        }

        /// <summary>Makes the join, and waits for it.</summary>
        private PathNode Join(Call call, PathTask join, Value said, Value late)
        {
            NoteBlocking(call, join);
            PathNode node = Machine.NewNode(NodeKind.Spawn, call.State);
            node.Task = join;
            Call copy = call.On(call.State.Clone());
            var result = new WaitResult(call.HasResult, said);
            PathNode awaited = Limited(copy, late, it => Machine.Waits.Await(it, new TaskValue(join), result, isAggregate: true));
            node.Out[Way.Ok] = Machine.Explorer.Follow(copy.State, awaited);
            return node;
        }

        /// <summary>Waits, where a time that is over or a token that is requested may end the wait first.</summary>
        private PathNode Limited(Call call, Value late, Func<Call, PathNode> wait)
        {
            WaitLimits limits = WaitLimits.Of(call);
            Func<PathState, PathNode> stopped = state => Stopped(call.On(state), limits.Token, wait);
            if (!limits.HasTime)
            {
                return stopped(call.State);
            }
            return BothWays(call.State, "in_time", stopped, state => call.On(state).Give(late));
        }

        /// <summary>Waits, or looks at the token first. A request may come at any moment, so where it comes during the wait the look is
        /// as late.</summary>
        private PathNode Stopped(Call call, PathToken token, Func<Call, PathNode> wait)
        {
            if (token == null)
            {
                return wait(call);
            }
            return BothWays(
                call.State,
                "before_" + token.Name,
                state => wait(call.On(state)),
                state => Machine.Jobs.Check(state, token, passed => wait(call.On(passed))));
        }

        private PathNode BothWays(PathState state, string what, Func<PathState, PathNode> yes, Func<PathState, PathNode> no)
        {
            Machine.Notes.Add(Assumption.InTime, state.Where);
            return Machine.Branches.Both(state, Machine.Fresh(Naming.Identifier(what)), yes, no);
        }

        private void NoteBlocking(Call call, PathTask task)
        {
            if (task != null)
            {
                Machine.Notes.Add(Assumption.Blocking, call.Where, task.Name);
            }
        }
    }
}
