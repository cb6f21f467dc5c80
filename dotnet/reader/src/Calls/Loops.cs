using System;

namespace TaskGraph.Reading
{
    /// <summary>Loops without a bound that is seen: each is one job, if it does nothing but jobs.</summary>
    internal sealed class Loops
    {
        private readonly Machine machine;

        public Loops(Machine machine)
        {
            this.machine = machine;
        }

        /// <summary>Runs the loop in which the path stands as one job.</summary>
        /// <exception cref="ReadException">It does more than jobs.</exception>
        public PathNode AsJob(PathState state)
        {
            var body = new LoopBody(machine, state);
            body.Read();
            machine.Notes.Add(Assumption.LoopJob, body.Place, body.JobName);
            PathNode node = machine.NewNode(NodeKind.Job, state);
            node.Name = Naming.Identifier(body.JobName);
            node.IsSafe = !body.MayThrow;
            node.Out[Way.Ok] = GoOn(state, body);
            if (body.MayThrow)
            {
                PathState failed = state.Clone();
                body.Forget(failed);
                var thrown = new ThrownValue("job " + node.Name, false, null, node.Id);
                node.Out[Way.Fault] = machine.Explorer.Follow(failed, ThrowFrom(failed, thrown, body));
            }
            return node;
        }

        private PathNode GoOn(PathState state, LoopBody body)
        {
            if (body.Exits.Count == 0)
            {
                return Endless(body);
            }
            PathState done = state.Clone();
            body.Forget(done);
            return body.Token == null
                ? machine.Explorer.Follow(done, LeaveBy(done, body, 0))
                : Check(done, body);
        }

        private PathNode Endless(LoopBody body)
        {
            if (!body.MayThrow)
            {
                throw body.Refuse("it never ends");
            }
            machine.Notes.Add(Assumption.Endless, body.Place);
            PathNode end = machine.NewPlain(NodeKind.End, body.Place);
            end.Final = Final.Faulted;
            end.Exception = new ThrownValue("never", false, null, ThrownValue.Here);
            return end;
        }

        /// <summary>Leaves by one of the ways out; which one isn't known.</summary>
        private PathNode LeaveBy(PathState state, LoopBody body, int exit)
        {
            if (exit == body.Exits.Count - 1)
            {
                return Take(state, body.Exits[exit]);
            }
            Unknown asked = machine.Fresh("loop_exit_" + (exit + 1));
            return machine.Branches.Both(state, asked, it => Take(it, body.Exits[exit]), it => LeaveBy(it, body, exit + 1));
        }

        private PathNode Take(PathState state, LoopExit exit)
        {
            if (exit.IsLeave)
            {
                state.Top.At = exit.From;
                machine.Exceptions.Leave(state, exit.Target);
            }
            else
            {
                state.Top.At = exit.Target;
            }
            return null;
        }

        /// <summary>A loop that gets a token stops by it, by an exception or in order.</summary>
        private PathNode Check(PathState state, LoopBody body)
        {
            PathNode node = machine.NewNode(NodeKind.Check, state);
            node.Token = body.Token;
            PathState well = state.Clone();
            node.Out[Way.Ok] = machine.Explorer.Follow(well, LeaveBy(well, body, 0));
            PathState stopped = state.Clone();
            var thrown = new ThrownValue(Exceptions.LabelOf(body.Token), true, null, node.Id);
            PathNode byException = machine.Explorer.Follow(stopped, ThrowFrom(stopped, thrown, body));
            PathState left = state.Clone();
            PathNode inOrder = machine.Explorer.Follow(left, LeaveBy(left, body, 0));
            Unknown asked = machine.Fresh("stops_by_exception");
            machine.AskFor(asked);
            PathNode how = machine.NewNode(NodeKind.If, state);
            how.Input = asked.Id;
            how.Out[Way.Yes] = byException;
            how.Out[Way.No] = inOrder;
            node.Out[Way.Cancel] = how;
            return node;
        }

        /// <summary>An exception leaves the loop: from one place for each choice of handlers around it. Which one isn't
        /// known.</summary>
        private PathNode ThrowFrom(PathState state, ThrownValue thrown, LoopBody body, int number = 0)
        {
            if (number == body.Throwers.Count - 1)
            {
                return ThrowAt(state, thrown, body, body.Throwers[number]);
            }
            Unknown asked = machine.Fresh("where_" + (number + 1));
            return machine.Branches.Both(
                state, asked, it => ThrowAt(it, thrown, body, body.Throwers[number]), it => ThrowFrom(it, thrown, body, number + 1));
        }

        /// <summary>The handlers inside the loop are part of the job.</summary>
        private PathNode ThrowAt(PathState state, ThrownValue thrown, LoopBody body, int place)
        {
            state.Top.At = place;
            return machine.Exceptions.Dispatch(state, thrown, body.FirstOutside(place));
        }
    }
}
