using System;
using System.Collections.Generic;
using System.Linq;
using System.Threading.Tasks;

namespace TaskGraph.Reading
{
    /// <summary>The tasks of a document while it is made. Control that arrives at a place is a signal: a task that ended in a
    /// way.</summary>
    internal sealed class DocumentBuilder
    {
        private const int MostInputs = 16;

        private readonly MethodPaths paths;
        private readonly List<DocumentTask> tasks = new List<DocumentTask>();
        private readonly HashSet<string> names = new HashSet<string>();
        private readonly HashSet<string> sites = new HashSet<string>();
        private readonly Dictionary<string, string> inputs = new Dictionary<string, string>();
        private readonly List<string> inputNames = new List<string>();
        private readonly Dictionary<PathToken, string> tokens = new Dictionary<PathToken, string>();
        private readonly Dictionary<string, DocumentTask> known = new Dictionary<string, DocumentTask>();
        private readonly Dictionary<PathTask, MadeTask> made = new Dictionary<PathTask, MadeTask>();

        public DocumentBuilder(MethodPaths paths, Notes notes)
        {
            this.paths = paths;
            Notes = notes;
        }

        public Notes Notes { get; }

        /// <summary>The document so far.</summary>
        public ReadDocument Document(string ends)
        {
            foreach (DocumentTask task in tasks.Where(it => it.Token != null))
            {
                TokenName(task.Token);
            }
            return new ReadDocument(tasks, inputNames, tokens, ends);
        }

        public MadeTask Of(PathTask task)
        {
            if (!made.TryGetValue(task, out MadeTask found))
            {
                made[task] = found = new MadeTask();
            }
            return found;
        }

        // names

        public string TaskName(string wanted) => Free(wanted, names);

        /// <summary>The input that stands for a value on which a path branches.</summary>
        public string InputName(string id)
        {
            if (inputs.TryGetValue(id, out string name))
            {
                return name;
            }
            inputs[id] = name = FreeOf(paths.Inputs[id], inputNames.Contains);
            inputNames.Add(name);
            if (inputNames.Count > MostInputs)
            {
                string what = "more than " + MostInputs + " conditions that aren't known; the last is " + name;
                throw new ReadException(RefusalCode.Size, paths.Name, what);
            }
            return name;
        }

        public string TokenName(PathToken token)
        {
            if (tokens.TryGetValue(token, out string name))
            {
                return name;
            }
            token.Linked.ForEach(it => TokenName(it));
            return tokens[token] = FreeOf(token.Name, tokens.Values.Contains);
        }

        public Statement Work(string name, bool isSafe) => Statement.Work(Free(Naming.OfJob(name), sites), !isSafe);

        /// <summary>The names that are taken, to go back to where a way turns out to be none.</summary>
        public Action Remember()
        {
            var keptSites = new HashSet<string>(sites);
            var keptNames = new HashSet<string>(names);
            return () =>
            {
                sites.IntersectWith(keptSites);
                names.IntersectWith(keptNames);
            };
        }

        // tasks

        public DocumentTask Add(DocumentTask task)
        {
            tasks.Add(task);
            return task;
        }

        /// <summary>A task that begins where control arrives. One that begins where another failed reads its exception, as a
        /// catch does.</summary>
        public DocumentTask Make(Signal signal, string name, List<Statement> body, string origin, PathToken token = null, IEnumerable<string> options = null)
        {
            DocumentTask task = MakeMarker(signal, name, body, origin);
            task.Token = token;
            task.Options.AddRange((options ?? new string[0]).Where(it => !task.Options.Contains(it)));
            if (signal.IsFault && !signal.IsStart)
            {
                task.Body.Insert(0, Statement.Observe());
            }
            return task;
        }

        /// <summary>The same for a task that the reader adds: it reads nothing.</summary>
        public DocumentTask MakeMarker(Signal signal, string name, List<Statement> body, string origin = null)
        {
            var task = new DocumentTask(TaskName(name), signal.IsStart ? DocumentTask.Root : DocumentTask.Continuation)
            {
                After = signal.Task, Body = body, Origin = origin,
            };
            if (!signal.IsStart && signal.Option != "")
            {
                task.Options.Add(signal.Option);
            }
            return Add(task);
        }

        /// <summary>A WhenAll of tasks; the task itself, if there is one.</summary>
        public DocumentTask All(IEnumerable<DocumentTask> joined, string name)
        {
            List<DocumentTask> of = joined.Where(it => it != null).Distinct().ToList();
            return of.Count == 1 ? of[0] : Once(
                "all " + string.Join(",", of.Select(it => it.Name)),
                () => Add(new DocumentTask(TaskName(name), DocumentTask.All) { Of = of }));
        }

        /// <summary>A task that runs to completion just where control arrives; null for the start.</summary>
        public DocumentTask AsRan(Signal signal) => signal.IsStart ? null : signal.IsRan ? signal.Task : Marker(signal);

        public DocumentTask Marker(Signal signal) =>
            Once("m " + signal, () => MakeMarker(signal, "At_" + signal.Task.Name, new List<Statement>()));

        /// <summary>A task that runs to completion once another has ended, in whichever way.</summary>
        public DocumentTask Over(DocumentTask task) =>
            Once("o " + task.Name, () => MakeMarker(Signal.Ended(task), "Over_" + task.Name, new List<Statement>()));

        /// <summary>A task that fails just where control arrives.</summary>
        public DocumentTask Via(Signal signal) =>
            Once("v " + signal, () => MakeVia(signal));

        /// <summary>Control arrives, and a marker has run to completion.</summary>
        public Signal And(Signal signal, DocumentTask marker)
        {
            DocumentTask arrived = AsRan(signal);
            return Signal.Ran(arrived == null ? marker : All(new[] { arrived, marker }, "And"));
        }

        /// <summary>Control arrives in one of several ways.</summary>
        public Signal Or(IReadOnlyList<Signal> signals, string origin)
        {
            if (signals.Any(it => it.IsStart))
            {
                throw new ReadException(RefusalCode.Paths, origin, "paths meet of which one begins here");
            }
            IEnumerable<DocumentTask> of = signals.Select(it => it.IsFault ? it.Task : Via(it)).ToList();
            return Signal.Faulted(All(of, signals.All(it => it.IsFault) ? "Try" : "Either"));
        }

        private DocumentTask MakeVia(Signal signal)
        {
            var body = new List<Statement> { Statement.Throw("Here") };
            return MakeMarker(signal, "Via_" + signal.Task.Name, body);
        }

        private DocumentTask Once(string key, Func<DocumentTask> make)
        {
            if (!known.TryGetValue(key, out DocumentTask task))
            {
                known[key] = task = make();
            }
            return task;
        }

        private static string Free(string wanted, HashSet<string> used)
        {
            string name = FreeOf(Naming.Identifier(wanted), used.Contains);
            used.Add(name);
            return name;
        }

        private static string FreeOf(string wanted, Func<string, bool> isUsed)
        {
            string name = wanted;
            for (int number = 2; isUsed(name); number++)
            {
                name = wanted + "_" + number;
            }
            return name;
        }
    }
}
