using System;
using System.Collections.Generic;
using System.Linq;
using System.Threading.Tasks;
using Mono.Cecil;
using Mono.Cecil.Cil;

namespace TaskGraph.Reading
{
    /// <summary>Waits for tasks.</summary>
    internal sealed class Waits
    {
        private readonly Machine machine;

        public Waits(Machine machine)
        {
            this.machine = machine;
        }

        /// <summary>Whether what the call at hand gives is waited for before anything else happens.</summary>
        public static bool IsWaitedForAtOnce(Frame frame)
        {
            IList<Instruction> code = frame.Method.Body.Instructions;
            int at = frame.At + 1;
            while (at < code.Count && IsOnTheWay(code, at))
            {
                at++;
            }
            string name = at < code.Count ? (code[at].Operand as MethodReference)?.Name : null;
            return name == "GetAwaiter" || name == "Wait" || name == "get_Result";
        }

        /// <summary>Waits for a value, by await or by a call that blocks. An aggregate hides whether it was a
        /// cancellation.</summary>
        public PathNode Await(Call call, Value awaited, bool hasResult, bool isAggregate) =>
            Await(call, awaited, new WaitResult(hasResult), isAggregate);

        /// <summary>The same, where the call gives what is said.</summary>
        public PathNode Await(Call call, Value awaited, WaitResult result, bool isAggregate)
        {
            if (awaited is EndedTask ended)
            {
                return OfEnded(call, ended, result);
            }
            if (awaited is TaskValue value)
            {
                return OfTask(call, value, result, isAggregate);
            }
            if (awaited is WinnerValue winner)
            {
                return OfWinner(call, winner.Any, result);
            }
            if (awaited is Mark subject && subject.Kind == MarkKind.Subject)
            {
                return OnSubject(call, result.Stands);
            }
            if (awaited is Mark any && any.Kind == MarkKind.AnySubject)
            {
                return result.Stands ? call.Give(new Mark(MarkKind.Subject, any.About)) : call.Skip();
            }
            throw call.Refuse(RefusalCode.Await, "an await of a value that isn't followed");
        }

        /// <summary>Reads the result of the subject, which throws what the subject threw.</summary>
        public PathNode OnSubject(Call call, bool hasResult)
        {
            PathState state = call.State;
            state.Assumed.TryGetValue(Branches.AskedOfSubject(Final.RanToCompletion), out bool isKnownWell);
            bool isFiltered = state.SubjectOptions.Contains(ContinuationFilter.OnlyOnRanToCompletion);
            if ((!MayFault(state.Subject) && !MayCancel(state.Subject)) || isKnownWell || isFiltered)
            {
                return GiveResult(state, "Result", hasResult);
            }
            PathNode node = machine.NewNode(NodeKind.When, state);
            node.Final = Final.RanToCompletion;
            PathState well = state.Clone();
            well.Assumed[Branches.AskedOfSubject(Final.RanToCompletion)] = true;
            node.Out[Way.Yes] = machine.Explorer.Follow(well, GiveResult(well, "Result", hasResult));
            PathState other = state.Clone();
            other.Assumed[Branches.AskedOfSubject(Final.RanToCompletion)] = false;
            PathNode read = machine.NewNode(NodeKind.Observe, other);
            var thrown = new ThrownValue("Result", false, null, node.Id);
            read.Out[Way.Ok] = machine.Explorer.Follow(other, machine.Exceptions.Throw(other, thrown));
            node.Out[Way.No] = read;
            return node;
        }

        /// <summary>The ways in which a task may end that is waited for, with what is thrown then; null for nothing.</summary>
        public IEnumerable<KeyValuePair<Way, ThrownValue>> EndsOf(PathTask task, PathNode node, bool isAggregate)
        {
            yield return new KeyValuePair<Way, ThrownValue>(Way.Ok, null);
            if (MayFault(task))
            {
                var thrown = new ThrownValue("task " + task.Name, false, null, node.Id);
                yield return new KeyValuePair<Way, ThrownValue>(Way.Fault, thrown);
            }
            if (MayCancel(task))
            {
                var thrown = new ThrownValue("canceled " + task.Name, !isAggregate, null, node.Id);
                yield return new KeyValuePair<Way, ThrownValue>(Way.Cancel, thrown);
            }
        }

        public bool MayFault(PathTask task)
        {
            switch (task.Shape)
            {
                case TaskShape.Job:
                    return !task.IsSafe;
                case TaskShape.All:
                    return task.Of.Any(MayFault);
                case TaskShape.Any:
                    return false;
                default:
                    return task.Body.Ends().Any(it => it.Final == Final.Faulted);
            }
        }

        public static bool MayCancel(PathTask task)
        {
            switch (task.Shape)
            {
                case TaskShape.Job:
                    return task.Token != null;
                case TaskShape.All:
                    return task.Of.Any(MayCancel);
                case TaskShape.Any:
                    return false;
                default:
                    return task.Token != null || task.Excludes || task.Body.Ends().Any(it => it.Final == Final.Canceled);
            }
        }

        private static bool IsOnTheWay(IList<Instruction> code, int at)
        {
            Instruction instruction = code[at];
            if (Variables.Stored(instruction) >= 0)
            {
                return at + 1 < code.Count && Variables.IsAddress(code[at + 1]);
            }
            Code operation = instruction.OpCode.Code;
            bool isConfigured = (instruction.Operand as MethodReference)?.Name == "ConfigureAwait";
            return isConfigured || operation == Code.Nop || operation == Code.Ldloca_S || operation == Code.Ldc_I4_0 || operation == Code.Ldc_I4_1;
        }

        private PathNode OfEnded(Call call, EndedTask ended, WaitResult result)
        {
            if (ended.Exception != null)
            {
                return machine.Explorer.RunOn(call.State, machine.Exceptions.Throw(call.State, ended.Exception));
            }
            return result.Stands ? call.Give(result.Said ?? ended.Result) : call.Skip();
        }

        private PathNode OfTask(Call call, TaskValue value, WaitResult result, bool isAggregate)
        {
            if (value.IsOuter)
            {
                throw call.Refuse(RefusalCode.Outer, "the outer task of an async body is awaited without Unwrap: it ends at the body's first await");
            }
            PathTask task = value.Task;
            PathNode node = machine.NewNode(NodeKind.Await, call.State);
            node.Task = task;
            foreach (KeyValuePair<Way, ThrownValue> end in EndsOf(task, node, isAggregate))
            {
                PathState copy = call.State.Clone();
                Know(copy, task, end.Key);
                PathNode next = end.Value != null
                    ? machine.Exceptions.Throw(copy, end.Value)
                    : GiveResult(copy, result.Stands ? result.Said ?? ResultOf(call, task) : null);
                node.Out[end.Key] = machine.Explorer.Follow(copy, next);
            }
            return node;
        }

        private Value ResultOf(Call call, PathTask task) => task.Shape == TaskShape.Any
            ? new WinnerValue(task)
            : (Value)machine.Fresh(task.Name, Types.ReturnOf(call.Method));

        private PathNode OfWinner(Call call, PathTask any, WaitResult result)
        {
            PathNode node = machine.NewNode(NodeKind.Winner, call.State);
            node.Task = any;
            PathState well = call.State.Clone();
            node.Out[Way.Ok] = machine.Explorer.Follow(well, GiveResult(well, result.Stands ? result.Said ?? machine.Fresh("winner") : null));
            if (any.Of.Any(MayFault))
            {
                Throw(call.State, node, Way.Fault, new ThrownValue("winner of " + any.Name, false, null, node.Id));
            }
            if (any.Of.Any(MayCancel))
            {
                Throw(call.State, node, Way.Cancel, new ThrownValue("canceled winner of " + any.Name, true, null, node.Id));
            }
            return node;
        }

        private void Throw(PathState state, PathNode node, Way way, ThrownValue thrown)
        {
            PathState copy = state.Clone();
            node.Out[way] = machine.Explorer.Follow(copy, machine.Exceptions.Throw(copy, thrown));
        }

        private PathNode GiveResult(PathState state, string name, bool hasResult) =>
            GiveResult(state, hasResult ? machine.Fresh(name) : null);

        private static PathNode GiveResult(PathState state, Value result)
        {
            if (result != null)
            {
                state.Top.Push(result);
            }
            state.Top.At++;
            return null;
        }

        /// <summary>What a path knows of a task once it was waited for.</summary>
        private static void Know(PathState state, PathTask task, Way way)
        {
            if (way == Way.Ok && task.Shape == TaskShape.All)
            {
                task.Of.ForEach(it => Know(state, it, way));
            }
            state.Known[task.Id] = way == Way.Ok ? Final.RanToCompletion : way == Way.Fault ? Final.Faulted : Final.Canceled;
        }
    }
}
