using System;
using System.Collections.Generic;
using System.Linq;
using Mono.Cecil;

namespace TaskGraph.Reading
{
    /// <summary>Runs a method's IL on every path at once: what isn't known is branched on, and what isn't followed is a
    /// job.</summary>
    internal sealed class Machine
    {
        private const int DeepestCalls = 24;

        private readonly Dictionary<MethodDefinition, MethodFlow> flows = new Dictionary<MethodDefinition, MethodFlow>();
        private readonly List<PathTask> tasks = new List<PathTask>();
        private readonly SortedDictionary<string, string> inputs = new SortedDictionary<string, string>(StringComparer.Ordinal);
        private int tokens;
        private int nodes;
        private int objects;
        private int fresh;

        /// <param name="settings">What the reader is told.</param>
        /// <param name="mostInlined">How many of the team's methods are followed into each other.</param>
        /// <param name="circles">The places of loops that are one job.</param>
        public Machine(ReadSettings settings, int mostInlined, IEnumerable<string> circles)
        {
            Settings = settings;
            MostInlined = mostInlined;
            Circles = new HashSet<string>(circles);
            Explorer = new Explorer(this);
            Exceptions = new Exceptions(this);
            Branches = new Branches(this);
            Outside = new Outside(this);
            Memory = new Memory(this);
            Jobs = new Jobs(this);
            Waits = new Waits(this);
            Bodies = new Bodies(this);
            Loops = new Loops(this);
            Calls = new CallRules(this);
            Interpreter = new Interpreter(this);
        }

        public ReadSettings Settings { get; }

        public int MostInlined { get; }

        public HashSet<string> Circles { get; }

        public Notes Notes { get; } = new Notes();

        public TaskUse Uses { get; } = new TaskUse();

        public Explorer Explorer { get; }

        public Exceptions Exceptions { get; }

        public Branches Branches { get; }

        public Outside Outside { get; }

        public Memory Memory { get; }

        public Jobs Jobs { get; }

        public Waits Waits { get; }

        public Bodies Bodies { get; }

        public Loops Loops { get; }

        public CallRules Calls { get; }

        public Interpreter Interpreter { get; }

        /// <summary>All paths through a method.</summary>
        /// <exception cref="ReadException">It has what isn't followed.</exception>
        /// <exception cref="LoopFound">A path comes back to where it was.</exception>
        public MethodPaths PathsOf(MethodDefinition method)
        {
            var state = new PathState();
            var arguments = new List<Value>();
            if (!method.IsStatic)
            {
                arguments.Add(NewObject(state));
            }
            foreach (ParameterDefinition parameter in method.Parameters)
            {
                string id = "arg " + method.FullName + parameter.Name;
                arguments.Add(Outside.ValueOf(id, parameter.Name, parameter.ParameterType, Naming.Written(method)));
            }
            Enter(state, method, arguments);
            return new MethodPaths(method.Name, Explorer.Explore(state), tasks, inputs);
        }

        public MethodFlow FlowOf(MethodDefinition method)
        {
            if (!flows.TryGetValue(method, out MethodFlow flow))
            {
                flows[method] = flow = new MethodFlow(method);
            }
            return flow;
        }

        /// <summary>Follows a call.</summary>
        public void Enter(PathState state, MethodDefinition method, IEnumerable<Value> arguments)
        {
            if (state.Frames.Count > DeepestCalls)
            {
                throw state.Refuse(RefusalCode.Depth, "calls are nested too deeply at " + Naming.Written(method));
            }
            state.Frames.Add(new Frame(method, arguments));
        }

        /// <summary>A value that nothing is known of.</summary>
        public Unknown Fresh(string name, TypeReference type = null) => new Unknown("u" + NextId(), name, type);

        public int NextId() => ++fresh;

        public ObjectValue NewObject(PathState state, IEnumerable<Value> items = null)
        {
            state.Heap[++objects] = new HeapObject(items);
            return new ObjectValue(objects);
        }

        public PathTask NewTask(TaskShape shape, string name, string origin)
        {
            var task = new PathTask(tasks.Count, shape, name, origin);
            tasks.Add(task);
            return task;
        }

        public PathToken NewToken(string name, string origin, bool isOwn = false) =>
            new PathToken(tokens++, Naming.Identifier(name), origin, isOwn);

        public PathNode NewNode(NodeKind kind, PathState state)
        {
            string site = kind + string.Join("/", state.Frames.Select(it => LoopFound.PlaceOf(it.Method, it.At)));
            state.Counts.TryGetValue(site, out int count);
            state.Counts[site] = ++count;
            return new PathNode(++nodes, kind, state.Where, site + "#" + count);
        }

        /// <summary>A node that is nowhere in the code.</summary>
        public PathNode NewPlain(NodeKind kind, string origin = "") => new PathNode(++nodes, kind, origin, "");

        public void AskFor(Unknown input) => inputs[input.Id] = input.Name;
    }
}
