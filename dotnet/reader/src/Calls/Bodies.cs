using System;
using System.Collections.Generic;
using System.Linq;
using System.Threading.Tasks;
using Mono.Cecil;

namespace TaskGraph.Reading
{
    /// <summary>Makes tasks, and follows their bodies.</summary>
    internal sealed class Bodies
    {
        private readonly Machine machine;

        public Bodies(Machine machine)
        {
            this.machine = machine;
        }

        /// <summary>Makes a task that stands behind the call at hand.</summary>
        public PathNode Make(PathState state, PathTask task, Value result = null, bool hasResult = true)
        {
            PathNode node = machine.NewNode(NodeKind.Spawn, state);
            node.Task = task;
            return machine.Explorer.Fork(state, node, new Choice(Way.Ok, it => Give(it, result ?? new TaskValue(task, task.IsOuter), hasResult)));
        }

        /// <summary>Makes a task that runs a delegate, behind another task if one is given.</summary>
        public PathNode Start(PathState state, StartArguments given, PathTask after, List<Value> arguments, bool isUnwrapped)
        {
            MethodDefinition method = Types.Find(given.Body.Method);
            PathTask task = machine.NewTask(TaskShape.Body, Naming.OfTask(given.Name), state.Where);
            task.After = after;
            task.Options = given.Options;
            task.Token = given.Token;
            bool isAsync = Types.IsTask(method?.ReturnType ?? given.Body.Method.ReturnType);
            task.IsOuter = isAsync && !isUnwrapped;
            if (IsJob(method))
            {
                task.Body = OneJob(state, given.Body.Method);
                return Make(state, task);
            }
            IEnumerable<Value> handed = method.Parameters.Select((_, at) => at < arguments.Count
                ? arguments[at]
                : new NullValue());
            task.Body = BodyOf(state, method, WithTarget(method, given.Body.Target, handed), task, isAsync);
            return Make(state, task);
        }

        /// <summary>Makes a task of an async method of the team that isn't waited for at once.</summary>
        public PathNode StartMethod(PathState state, MethodDefinition method, List<Value> arguments)
        {
            PathTask task = machine.NewTask(TaskShape.Body, Naming.OfTask(method.Name), state.Where);
            task.Body = BodyOf(state, method, arguments, task, Types.IsTask(method.ReturnType));
            return Make(state, task, hasResult: !Types.IsVoid(method.ReturnType));
        }

        /// <summary>The tasks of a join.</summary>
        /// <exception cref="ReadException">Their number isn't known, or one can't be joined.</exception>
        public List<PathTask> TasksIn(PathState state, IEnumerable<Value> arguments)
        {
            var tasks = new List<PathTask>();
            foreach (Value item in arguments.SelectMany(it => state.ItemsOf(it) ?? new List<Value> { it }))
            {
                if (item is TaskValue value)
                {
                    tasks.Add(value.Task);
                }
                else if (!(item is EndedTask ended) || ended.Exception != null)
                {
                    throw NoJoin(state, item);
                }
            }
            return tasks;
        }

        /// <summary>The tasks of a WhenAny or WaitAny.</summary>
        /// <exception cref="ReadException">There is none, one has ended already, their number isn't known, or one can't be joined.</exception>
        public List<PathTask> TasksOfAny(PathState state, IEnumerable<Value> arguments)
        {
            List<Value> items = arguments.SelectMany(it => state.ItemsOf(it) ?? new List<Value> { it }).ToList();
            if (items.Any(it => it is EndedTask))
            {
                throw state.Refuse(RefusalCode.Join, "a WhenAny over a task that has ended, which is over at once");
            }
            List<PathTask> tasks = TasksIn(state, items);
            return tasks.Count > 0 ? tasks : throw state.Refuse(RefusalCode.Join, "a WhenAny of nothing");
        }

        /// <summary>Goes on with the next item of a list for which a lambda runs, or with what it gave, behind the call at
        /// hand.</summary>
        public void Collect(PathState state, Collection collection)
        {
            if (collection.IsOver)
            {
                state.Top.Give(machine.NewObject(state, collection.Made));
                return;
            }
            MethodDefinition method = Types.Find(collection.Lambda.Method);
            machine.Enter(state, method, WithTarget(method, collection.Lambda.Target, new[] { collection.Item }));
            state.Top.Collects = collection;
        }

        /// <summary>What a lambda gives for each item of a list, in their order.</summary>
        public PathNode ForEach(PathState state, List<Value> items, DelegateValue lambda)
        {
            MethodDefinition method = Types.Find(lambda.Method);
            if (!Types.IsTask(method.ReturnType))
            {
                state.Top.Give(machine.NewObject(state, items.Select(_ => machine.Fresh("item"))));
                return null;
            }
            if (Types.IsAsync(method))
            {
                return TaskForEach(state, items, lambda, new List<Value>());
            }
            Collect(state, new Collection(lambda, items, new Value[0]));
            return null;
        }

        /// <exception cref="ReadException">A lambda makes more tasks than those that it gives.</exception>
        public void DemandJobs(PathState state, DelegateValue lambda)
        {
            MethodDefinition method = Types.Find(lambda.Method);
            if (method == null)
            {
                return;
            }
            IEnumerable<MethodReference> calls = Types.CodeOf(method).Body.Instructions.Select(it => it.Operand).OfType<MethodReference>();
            MethodReference bad = calls.FirstOrDefault(
                it => it.DeclaringType.Name.StartsWith("CancellationTokenSource", StringComparison.Ordinal) || it.Name == "ContinueWith");
            if (bad != null)
            {
                throw state.Refuse(RefusalCode.List, "a lambda for each item that does more than jobs (" + bad.Name + ")");
            }
        }

        private static ReadException NoJoin(PathState state, Value item)
        {
            if (item is EndedTask)
            {
                return state.Refuse(RefusalCode.Join, "a task that has failed at once is joined");
            }
            return item is WinnerValue
                ? state.Refuse(RefusalCode.Winner, "the winner of a WhenAny is joined: which one isn't known to a document")
                : state.Refuse(RefusalCode.List, "tasks are joined whose number isn't known" + (item is Unknown it ? " (" + it.Name + ")" : ""));
        }

        private static void Give(PathState state, Value result, bool hasResult)
        {
            if (hasResult)
            {
                state.Top.Push(result);
            }
            state.Top.At++;
        }

        private static IEnumerable<Value> WithTarget(MethodDefinition method, Value target, IEnumerable<Value> arguments) =>
            method.HasThis ? new[] { target }.Concat(arguments) : arguments;

        /// <summary>Whether a delegate's method is a job as a whole: a lambda never is.</summary>
        private bool IsJob(MethodDefinition method) =>
            method == null || !method.HasBody || method.IsVirtual || (!machine.Uses.Touches(method) && !Types.IsGeneratedName(method.Name));

        /// <summary>A body that is one job.</summary>
        private PathNode OneJob(PathState state, MethodReference method)
        {
            string name = Naming.OfCall(method);
            PathNode job = machine.NewPlain(NodeKind.Job, state.Where);
            job.Name = Naming.Identifier(name);
            job.IsSafe = machine.Jobs.IsSafe(method, name);
            job.Out[Way.Ok] = machine.NewPlain(NodeKind.End);
            if (!job.IsSafe)
            {
                PathNode failed = machine.NewPlain(NodeKind.End);
                failed.Final = Final.Faulted;
                failed.Exception = new ThrownValue("job", false, null, job.Id);
                job.Out[Way.Fault] = failed;
            }
            return job;
        }

        /// <summary>The paths through the body of a task, apart from those on which it is made.</summary>
        private PathNode BodyOf(PathState state, MethodDefinition method, IEnumerable<Value> arguments, PathTask task, bool isAsync)
        {
            var body = new PathState
            {
                Subject = task.After,
                SubjectOptions = task.Options,
                OwnToken = task.Token,
                IsAsync = isAsync,
                Heap = PathState.CopyOf(state.Heap),
            };
            if (task.After != null && task.Options.Contains(ContinuationFilter.OnlyOnFaulted))
            {
                Branches.AssumeEnd(body, Final.Faulted);
            }
            if (task.After != null && task.Options.Contains(ContinuationFilter.OnlyOnRanToCompletion))
            {
                Branches.AssumeEnd(body, Final.RanToCompletion);
            }
            machine.Enter(body, method, arguments);
            return machine.Explorer.Apart(body);
        }

        /// <summary>A task for each item, by an async lambda.</summary>
        private PathNode TaskForEach(PathState state, List<Value> items, DelegateValue lambda, List<Value> made)
        {
            if (made.Count == items.Count)
            {
                state.Top.Give(machine.NewObject(state, made));
                return machine.Explorer.Explore(state);
            }
            MethodDefinition method = Types.Find(lambda.Method);
            PathTask task = machine.NewTask(TaskShape.Body, Naming.OfTask(Naming.OfBody(lambda)), state.Where);
            task.Body = BodyOf(state, method, WithTarget(method, lambda.Target, new[] { items[made.Count] }), task, true);
            PathNode node = machine.NewNode(NodeKind.Spawn, state);
            node.Task = task;
            var next = new List<Value>(made) { new TaskValue(task) };
            node.Out[Way.Ok] = TaskForEach(state.Clone(), items, lambda, next);
            return node;
        }
    }
}
