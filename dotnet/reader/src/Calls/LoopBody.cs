using System;
using System.Collections.Generic;
using System.Linq;
using Mono.Cecil;
using Mono.Cecil.Cil;

namespace TaskGraph.Reading
{
    /// <summary>What a loop does, by its instructions.</summary>
    internal sealed class LoopBody
    {
        private static readonly HashSet<string> Starts = new HashSet<string> { "ContinueWith", "Run", "StartNew", "WhenAny" };
        private static readonly HashSet<string> OfLists = new HashSet<string> { "GetEnumerator", "get_Current", "Dispose" };
        private static readonly HashSet<string> ThrowingWaits = new HashSet<string> { "GetResult", "Wait", "get_Result" };

        private readonly Machine machine;
        private readonly PathState state;
        private readonly Frame frame;
        private readonly MethodFlow flow;
        private readonly HashSet<int> circle;
        private readonly List<int> places = new List<int>();
        private string job;

        public LoopBody(Machine machine, PathState state)
        {
            this.machine = machine;
            this.state = state;
            frame = state.Top;
            flow = machine.FlowOf(frame.Method);
            circle = flow.Circles.Through(frame.At);
            Place = state.Where;
        }

        public string Place { get; }

        public string JobName => job == null ? "Loop" : "Loop_" + job;

        public bool MayThrow { get; private set; }

        /// <summary>A token that it looks at; null for none.</summary>
        public PathToken Token { get; private set; }

        public IReadOnlyList<LoopExit> Exits { get; private set; }

        /// <summary>Places that may throw: one for each choice of handlers outside the loop.</summary>
        public IReadOnlyList<int> Throwers { get; private set; }

        /// <exception cref="ReadException">It does more than jobs.</exception>
        public void Read()
        {
            if (frame.Stack.Count > 0)
            {
                throw Refuse("a value is kept over it");
            }
            foreach (int at in circle.OrderBy(it => it))
            {
                Read(at);
            }
            Exits = FindExits().ToList();
            Throwers = places.Count == 0
              ? new List<int> { circle.Min() }
              : places.GroupBy(HandlersOutside).Select(it => it.First()).ToList();
        }

        public ReadException Refuse(string why) =>
            new ReadException(RefusalCode.Loop, Place, "a loop without a bound that is seen, and " + why);

        /// <summary>Nothing is known any more of what the loop assigns.</summary>
        public void Forget(PathState after)
        {
            foreach (int at in circle)
            {
                int local = Variables.Stored(flow.Code[at]);
                if (local >= 0 && !(after.Top.Locals[local] is TokenValue))
                {
                    string name = Symbols.NameOf(frame.Method, local) ?? "x";
                    after.Top.Locals[local] = machine.Fresh(name, frame.Method.Body.Variables[local].VariableType);
                }
                if (flow.Code[at].OpCode.Code == Code.Stfld)
                {
                    Forget(after, (FieldReference)flow.Code[at].Operand);
                }
            }
        }

        /// <summary>The first handler outside the loop for an exception at this place.</summary>
        public int FirstOutside(int place)
        {
            int first = 0;
            for (int number = 0; number < flow.Handlers.Count; number++)
            {
                bool isInside = circle.Contains(flow.PlaceOf(flow.Handlers[number].HandlerStart));
                first = isInside && flow.Covers(flow.Handlers[number], place) ? number + 1 : first;
            }
            return first;
        }

        private string HandlersOutside(int place)
        {
            IEnumerable<int> outside = Enumerable.Range(0, flow.Handlers.Count).Where(
                it => flow.Covers(flow.Handlers[it], place) && !circle.Contains(flow.PlaceOf(flow.Handlers[it].HandlerStart)));
            return string.Join(",", outside);
        }

        private void Read(int at)
        {
            Instruction instruction = flow.Code[at];
            Code operation = instruction.OpCode.Code;
            int stored = Variables.Stored(instruction), loaded = Variables.Loaded(instruction);
            if (stored >= 0 && Memory.IsFollowed(frame.Locals[stored]))
            {
                throw Refuse("a task or source is assigned in it");
            }
            if (loaded >= 0)
            {
                DemandNoTask(frame.Locals[loaded]);
            }
            if (operation == Code.Ret)
            {
                throw Refuse("it returns from within");
            }
            if (operation == Code.Throw || operation == Code.Rethrow)
            {
                MayThrow = true;
                places.Add(at);
            }
            if (instruction.Operand is FieldReference field && operation != Code.Stfld)
            {
                ReadField(field, at + 1 < flow.Code.Count ? flow.Code[at + 1].Operand as MethodReference : null);
            }
            if (instruction.Operand is MethodReference call)
            {
                ReadCall(at, call, operation == Code.Ldftn);
            }
        }

        private void DemandNoTask(Value value)
        {
            if (value is TaskValue task)
            {
                throw Refuse("it reads the task " + task.Task.Name);
            }
        }

        private void ReadField(FieldReference field, MethodReference next)
        {
            Value value = state.Heap.Values.Select(it => it.Fields.TryGetValue(field.Name, out Value found) ? found : null)
                .FirstOrDefault(it => it is TaskValue || it is SourceValue || it is TokenValue);
            DemandNoTask(value);
            if (value is SourceValue source && !IsOfToken(next))
            {
                throw Refuse("it uses the source " + source.Token.Name);
            }
            Token = (value as TokenValue)?.Token ?? (value as SourceValue)?.Token ?? Token;
        }

        private void ReadCall(int at, MethodReference call, bool isLambda)
        {
            string type = call.DeclaringType.GetElementType().FullName;
            if (isLambda)
            {
                DemandPlain(call);
                return;
            }
            DemandNoStart(type, call);
            bool isOfAwait = type.StartsWith("System.Runtime.CompilerServices.", StringComparison.Ordinal);
            bool isOfTask = type.StartsWith(Types.Tasks, StringComparison.Ordinal) || type == Types.Token || type == Types.Source;
            if (call.Name == "ThrowIfCancellationRequested")
            {
                places.Add(at);
            }
            else if (isOfAwait || isOfTask || LibraryCalls.IsPure(call))
            {
                if (ThrowingWaits.Contains(call.Name))
                {
                    places.Add(at);
                }
            }
            else if (!OfLists.Contains(call.Name))
            {
                ReadJob(at, call);
            }
        }

        private void ReadJob(int at, MethodReference call)
        {
            string name = Naming.OfCall(call);
            bool isOfList = name == "MoveNext";
            job = isOfList ? job : job ?? name;
            bool isSafe = machine.Jobs.IsSafe(call, name);
            MayThrow |= !isSafe;
            if (!(isOfList && isSafe))
            {
                places.Add(at);
            }
        }

        private void DemandPlain(MethodReference lambda)
        {
            if (machine.Uses.Touches(Types.Find(lambda)))
            {
                throw Refuse("a lambda in it touches tasks");
            }
        }

        private void DemandNoStart(string type, MethodReference call)
        {
            bool isTask = type.StartsWith(Types.Tasks, StringComparison.Ordinal);
            if (isTask && (Starts.Contains(call.Name) || call.Name.StartsWith("Continue", StringComparison.Ordinal)))
            {
                throw Refuse("tasks are made in it (" + call.Name + ")");
            }
            if (type == Types.Source && !IsOfToken(call))
            {
                throw Refuse("a source is used in it (" + call.Name + ")");
            }
            bool isList = type.StartsWith("System.Collections.Generic.", StringComparison.Ordinal);
            if (isList && call.DeclaringType is GenericInstanceType list && list.GenericArguments.Any(Types.IsTask))
            {
                throw Refuse("it keeps tasks in a list whose length isn't known then");
            }
        }

        private IEnumerable<LoopExit> FindExits()
        {
            var met = new HashSet<int>();
            foreach (int at in circle.OrderBy(it => it).Where(it => flow.Code[it].OpCode.Code != Code.Endfinally))
            {
                bool isLeave = flow.Code[at].OpCode.Code == Code.Leave || flow.Code[at].OpCode.Code == Code.Leave_S;
                foreach (int target in flow.Next(at).Where(it => !circle.Contains(it) && flow.Circles.Ahead(at).Contains(it) && met.Add(it)))
                {
                    yield return new LoopExit(at, target, isLeave);
                }
            }
        }

        private void Forget(PathState after, FieldReference field)
        {
            if (IsOfMachine(field.Name))
            {
                return;
            }
            foreach (HeapObject found in after.Heap.Values)
            {
                if (found.Fields.TryGetValue(field.Name, out Value value) && !(value is TokenValue) && !(value is ObjectValue))
                {
                    found.Fields[field.Name] = machine.Fresh(Naming.Identifier(Naming.OfField(field.Name)), field.FieldType);
                }
            }
            HeapObject self = after.Top.Arguments.Length > 0 ? after.Find(after.Top.Arguments[0]) : null;
            if (self != null && Types.IsGenerated(field.DeclaringType))
            {
                self.Fields[field.Name] = machine.Fresh(Naming.Identifier(Naming.OfField(field.Name)), field.FieldType);
            }
        }

        /// <summary>Whether a call asks a source for its token, or whether that is requested.</summary>
        private static bool IsOfToken(MethodReference call) =>
            call?.Name == "get_Token" || call?.Name == "get_IsCancellationRequested";

        private static bool IsOfMachine(string field) =>
            field == "$PC" || field == "<>1__state" || field.StartsWith("$awaiter", StringComparison.Ordinal)
            || field.StartsWith("<>u", StringComparison.Ordinal);
    }
}
