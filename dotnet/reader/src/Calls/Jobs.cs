using System;
using System.Collections.Generic;
using System.Linq;
using Mono.Cecil;

namespace TaskGraph.Reading
{
    /// <summary>Calls that aren't followed.</summary>
    internal sealed class Jobs
    {
        private const string SafeAttribute = "NeverThrowsAttribute";

        private readonly Machine machine;

        public Jobs(Machine machine)
        {
            this.machine = machine;
        }

        /// <summary>Whether a job throws nothing: by its name, or by the attribute NeverThrows of any namespace.</summary>
        public bool IsSafe(MethodReference method, string name)
        {
            bool isMarked = Types.Find(method)?.CustomAttributes.Any(it => it.AttributeType.Name == SafeAttribute) ?? false;
            return isMarked || machine.Settings.Safe.Contains(name);
        }

        /// <summary>Runs a call as a job.</summary>
        public PathNode Run(Call call, string name)
        {
            foreach (Value argument in call.Arguments)
            {
                NoteHandedOver(call, argument, name);
            }
            IEnumerable<PathToken> handed = call.Arguments.OfType<TokenValue>().Select(it => it.Token).Where(it => it != null);
            IEnumerable<PathToken> captured = call.Arguments.OfType<DelegateValue>().SelectMany(it => CapturedBy(call.State, it));
            return Run(call.State, call.Method, name, OneOf(call.State, name, handed.Concat(captured)));
        }

        /// <summary>The same, of a call that is handed no task and no token.</summary>
        public PathNode Run(PathState state, MethodReference method, string name, PathToken token = null)
        {
            return Types.IsTask(Types.ReturnOf(method)) ? Start(state, method, name, token) : Work(state, method, name, token);
        }

        /// <summary>The tokens that a lambda has captured.</summary>
        public static IEnumerable<PathToken> CapturedBy(PathState state, DelegateValue lambda) =>
            FieldsOf(state, lambda.Target).SelectMany(it => new[] { it }.Concat(FieldsOf(state, it)))
                .OfType<TokenValue>().Select(it => it.Token).Where(it => it != null);

        /// <summary>The token by which a job may stop: of several, one that stands for any of them; null for none.</summary>
        public PathToken OneOf(PathState state, string name, IEnumerable<PathToken> tokens)
        {
            List<PathToken> distinct = tokens.Distinct().ToList();
            return distinct.Count < 2 ? distinct.FirstOrDefault() : machine.NewToken(name + "_canceled", state.Where, isOwn: true);
        }

        /// <summary>Looks at a token, which throws where it is requested.</summary>
        public PathNode Check(PathState state, PathToken token, Action<PathState> goOn)
        {
            return Check(state, token, passed =>
            {
                goOn(passed);
                return null;
            });
        }

        /// <summary>The same, where a path that passes may come to a node at once.</summary>
        public PathNode Check(PathState state, PathToken token, Func<PathState, PathNode> goOn)
        {
            PathNode node = machine.NewNode(NodeKind.Check, state);
            node.Token = token;
            PathState copy = state.Clone();
            node.Out[Way.Ok] = machine.Explorer.Follow(copy, goOn(copy));
            PathState stopped = state.Clone();
            var thrown = new ThrownValue(Exceptions.LabelOf(token), true, null, node.Id);
            node.Out[Way.Cancel] = machine.Explorer.Follow(stopped, machine.Exceptions.Throw(stopped, thrown));
            return node;
        }

        /// <summary>An async job: a task of its own.</summary>
        private PathNode Start(PathState state, MethodReference method, string name, PathToken token)
        {
            string own = Prefixed(state, name);
            PathTask task = machine.NewTask(TaskShape.Job, Naming.OfTask(own), state.Where);
            task.IsSafe = IsSafe(method, name);
            task.Token = token ?? (machine.Settings.MayCancel ? machine.NewToken(name + "_canceled", state.Where, isOwn: true) : null);
            if (task.Token == null)
            {
                machine.Notes.Add(Assumption.NoCancel, task.Name);
            }
            return machine.Bodies.Make(state, task);
        }

        /// <summary>A job that runs where it is called. One that gets a token may stop by it: a check stands behind it.</summary>
        private PathNode Work(PathState state, MethodReference method, string name, PathToken token)
        {
            PathNode node = machine.NewNode(NodeKind.Job, state);
            node.Name = Naming.Identifier(Prefixed(state, name));
            node.IsSafe = IsSafe(method, name);
            TypeReference type = method.Name == ".ctor" ? method.DeclaringType : Types.ReturnOf(method);
            PathState done = state.Clone();
            if (token == null)
            {
                GoOn(done, name, type);
                node.Out[Way.Ok] = machine.Explorer.Follow(done);
            }
            else
            {
                node.Out[Way.Ok] = Check(done, token, it => GoOn(it, name, type));
            }
            if (!node.IsSafe)
            {
                PathState failed = state.Clone();
                var thrown = new ThrownValue("job " + name, false, null, node.Id);
                node.Out[Way.Fault] = machine.Explorer.Follow(failed, machine.Exceptions.Throw(failed, thrown));
            }
            return node;
        }

        private void GoOn(PathState state, string name, TypeReference type)
        {
            if (!Types.IsVoid(type))
            {
                state.Top.Push(machine.Fresh(Naming.Identifier(name), type));
            }
            state.Top.At++;
        }

        private void NoteHandedOver(Call call, Value argument, string name)
        {
            if (argument is DelegateValue lambda && machine.Uses.Touches(lambda))
            {
                DemandRequests(call, lambda, name);
            }
            string what = (argument as SourceValue)?.Token.Name ?? (argument as TaskValue)?.Task.Name;
            if (what != null)
            {
                machine.Notes.Add(Assumption.HandedOver, call.Where, what + " to " + name);
            }
        }

        /// <exception cref="ReadException">A callback does more than to request tokens.</exception>
        public void DemandRequests(Call call, DelegateValue lambda, string name)
        {
            if (!machine.Uses.OnlyRequests(lambda))
            {
                throw call.Refuse(RefusalCode.Callback, "a lambda that touches tasks or tokens is handed to " + name + ", which isn't followed");
            }
            machine.Notes.Add(Assumption.Callback, call.Where);
        }

        private static IEnumerable<Value> FieldsOf(PathState state, Value value) =>
            state.Find(value)?.Fields.Values ?? Enumerable.Empty<Value>();

        /// <summary>The name of a job with that of the team's method in which it is called, if that is followed from another
        /// one.</summary>
        private static string Prefixed(PathState state, string name)
        {
            MethodDefinition first = state.Frames[0].Method;
            for (int number = state.Frames.Count - 1; number > 0; number--)
            {
                MethodDefinition method = state.Frames[number].Method;
                if (method.Name == "MoveNext")
                {
                    continue;
                }
                bool isNone = Types.IsGeneratedName(method.Name) || method == first || (number == 1 && Types.IsAsync(first));
                return isNone || method.Name == name ? name : method.Name + "_" + name;
            }
            return name;
        }
    }
}
