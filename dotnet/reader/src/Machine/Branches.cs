using System;
using System.Collections.Generic;
using System.Linq;
using Mono.Cecil;
using Mono.Cecil.Cil;

namespace TaskGraph.Reading
{
    /// <summary>Branches on values.</summary>
    internal sealed class Branches
    {
        // a branch that is met more often on one path belongs to a loop without a bound
        private const int MostMet = 12;
        private const int DisposeWithin = 6;

        private readonly Machine machine;

        public Branches(Machine machine)
        {
            this.machine = machine;
        }

        /// <summary>Jumps where a value is as it is wanted. Null: the path goes on.</summary>
        public PathNode Jump(PathState state, Value value, bool isWanted, int target)
        {
            int next = state.Top.At + 1;
            if (value.Truth.HasValue)
            {
                state.Top.At = value.Truth == isWanted ? target : next;
                return null;
            }
            if (IsDisposed(state, value))
            {
                state.Top.At = isWanted ? target : next;
                return null;
            }
            Count(state);
            if (value is Mark mark && mark.Kind == MarkKind.Not)
            {
                return Jump(state, mark.About, !isWanted, target);
            }
            int then = isWanted ? target : next, otherwise = isWanted ? next : target;
            if (value is Mark asked && asked.Kind == MarkKind.EndsAs)
            {
                return OnSubject(state, (Final)Enum.Parse(typeof(Final), asked.Detail), then, otherwise);
            }
            return Both(state, value as Unknown ?? machine.Fresh("cond"), it => GoTo(it, then), it => GoTo(it, otherwise));
        }

        /// <summary>Goes both ways, by an input; or one, where the path knows the value. Null: the path goes on.</summary>
        public PathNode Both(PathState state, Unknown asked, Func<PathState, PathNode> yes, Func<PathState, PathNode> no)
        {
            if (state.Assumed.TryGetValue(asked.Id, out bool known))
            {
                return machine.Explorer.RunOn(state, known ? yes(state) : no(state));
            }
            PathNode node = machine.NewNode(NodeKind.If, state);
            node.Input = asked.Id;
            machine.AskFor(asked);
            foreach (bool answer in new[] { true, false })
            {
                PathState copy = state.Clone();
                copy.Assumed[asked.Id] = answer;
                node.Out[answer ? Way.Yes : Way.No] = machine.Explorer.Follow(copy, answer ? yes(copy) : no(copy));
            }
            return node.Out[Way.Yes] == node.Out[Way.No] ? node.Out[Way.Yes] : node;
        }

        /// <summary>Goes on at one of many places, where the value that says which isn't known.</summary>
        public PathNode OneOf(PathState state, Value value, IReadOnlyList<int> places, int otherwise, int tried = 0)
        {
            if (tried == places.Count)
            {
                return GoTo(state, otherwise);
            }
            string name = (value as Unknown)?.Name ?? "value";
            var asked = new Unknown("(" + value.Key + "sw" + tried + ")", name + "_is_" + tried, null);
            return Both(state, asked, it => GoTo(it, places[tried]), it => OneOf(it, value, places, otherwise, tried + 1));
        }

        /// <summary>What a path takes for granted of the end of its subject.</summary>
        public static string AskedOfSubject(Final final) => "when " + final;

        /// <summary>Takes it for granted that the subject ended in this way.</summary>
        public static void AssumeEnd(PathState state, Final final)
        {
            foreach (Final other in Enum.GetValues(typeof(Final)))
            {
                state.Assumed[AskedOfSubject(other)] = other == final;
            }
        }

        private static PathNode GoTo(PathState state, int place)
        {
            state.Top.At = place;
            return null;
        }

        private PathNode OnSubject(PathState state, Final final, int then, int otherwise)
        {
            if (state.Assumed.TryGetValue(AskedOfSubject(final), out bool known))
            {
                return machine.Explorer.Follow(state, GoTo(state, known ? then : otherwise));
            }
            PathNode node = machine.NewNode(NodeKind.When, state);
            node.Final = final;
            return machine.Explorer.Fork(
                state,
                node,
                new Choice(Way.Yes, it => { AssumeEnd(it, final); GoTo(it, then); }),
                new Choice(Way.No, it => { it.Assumed[AskedOfSubject(final)] = false; GoTo(it, otherwise); }));
        }

        private static void Count(PathState state)
        {
            string place = LoopFound.PlaceOf(state.Top.Method, state.Top.At);
            state.Branches.TryGetValue(place, out int met);
            state.Branches[place] = met + 1;
            if (met + 1 > MostMet)
            {
                throw new LoopFound(state.Top.Method, state.Top.At);
            }
        }

        /// <summary>Whether the branch is that of a using, which disposes of a value unless it is null.</summary>
        private bool IsDisposed(PathState state, Value value)
        {
            if (!(value is Unknown it) || it.Type == null || it.Type.IsValueType || Types.IsBool(it.Type))
            {
                return false;
            }
            bool isDisposed = state.Top.Method.Body.Instructions.Skip(state.Top.At + 1).Take(DisposeWithin - 1).Any(IsDispose);
            if (isDisposed && !Outside.IsEnumerator(it))
            {
                machine.Notes.Add(Assumption.NotNull, state.Where, it.Name);
            }
            return isDisposed;
        }

        private static bool IsDispose(Instruction instruction) =>
            instruction.Operand is MethodReference call && (call.Name == "Dispose" || call.Name == "DisposeAsync");
    }
}
