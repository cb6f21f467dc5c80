using System;
using System.Collections.Generic;
using System.Linq;
using System.Threading.Tasks;

namespace TaskGraph.Tests
{
    /// <summary>A document that was drawn by chance, as a builder.</summary>
    internal sealed class DrawnGraph
    {
        private readonly Dictionary<string, object> document;
        private readonly Random chance;
        private readonly TaskGraphBuilder graph = new TaskGraphBuilder();
        private readonly Dictionary<string, GraphToken> tokens = new Dictionary<string, GraphToken>();
        private readonly Dictionary<string, GraphInput> inputs = new Dictionary<string, GraphInput>();
        private bool isAwaited;

        private DrawnGraph(string text, Random chance)
        {
            document = (Dictionary<string, object>)JsonReader.Read(text);
            this.chance = chance;
        }

        /// <summary>The tokens that are to be requested.</summary>
        internal IReadOnlyList<GraphToken> Requests { get; private set; }

        /// <summary>The jobs that are to fail.</summary>
        internal HashSet<string> Failing { get; private set; }

        internal TaskGraphBuilder Graph => graph;

        /// <summary>Builds the graph; a body that checks no foreign token is async or not by chance.</summary>
        internal static DrawnGraph Build(string text, Random chance)
        {
            var drawn = new DrawnGraph(text, chance);
            drawn.AddTokens();
            drawn.AddTasks();
            drawn.ReadStart();
            return drawn;
        }

        private static T Member<T>(object of, string name, T otherwise)
        {
            object found;
            return ((Dictionary<string, object>)of).TryGetValue(name, out found) ? (T)found : otherwise;
        }

        private static List<object> Items(object of, string name) => Member(of, name, new List<object>());

        private static TaskStatus Final(object word) => (TaskStatus)Enum.Parse(typeof(TaskStatus), (string)word);

        private void AddTokens()
        {
            foreach (object token in Items(document, "tokens"))
            {
                var name = token as string ?? Member(token, "name", "");
                tokens[name] = token is string ? graph.Token(name) : graph.Linked(name, Tokens(Items(token, "linked")));
            }
        }

        private GraphToken[] Tokens(IEnumerable<object> names) => names.Select(it => tokens[(string)it]).ToArray();

        private void AddTasks()
        {
            foreach (object name in Items(document, "inputs"))
            {
                inputs[(string)name] = graph.Input((string)name);
            }
            var bodies = new Dictionary<string, Steps>();
            foreach (object task in Items(document, "tasks"))
            {
                bodies[Member(task, "name", "")] = new Steps();
                AddTask(task, bodies[Member(task, "name", "")]);
            }
            foreach (object task in Items(document, "tasks"))
            {
                List<object> statements = Items(task, "body");
                isAwaited = chance.Next(2) == 0 && !ChecksForeign(statements, Member<string>(task, "token", null));
                bodies[Member(task, "name", "")].Append(Body(statements));
            }
        }

        private void AddTask(object task, Steps body)
        {
            string name = Member(task, "name", "");
            string token = Member<string>(task, "token", null);
            GraphToken own = token == null ? null : tokens[token];
            TaskContinuationOptions options = Options(Items(task, "options"));
            GraphTask[] of = Items(task, "of").Select(it => graph[(string)it]).ToArray();
            switch (Member(task, "kind", ""))
            {
                case "root": graph.StartNew(name, body, (TaskCreationOptions)options, own); break;
                case "child": graph.Child(name, body, (TaskCreationOptions)options, own); break;
                case "then": graph[Member(task, "after", "")].ContinueWith(name, body, options, own); break;
                case "all": graph.WhenAll(name, of); break;
                default: graph.WhenAny(name, of); break;
            }
        }

        private static TaskContinuationOptions Options(IEnumerable<object> words)
        {
            return words.Aggregate(
                TaskContinuationOptions.None,
                (sum, it) => sum | (TaskContinuationOptions)Enum.Parse(typeof(TaskContinuationOptions), (string)it));
        }

        private static bool ChecksForeign(IEnumerable<object> statements, string own)
        {
            return statements.OfType<Dictionary<string, object>>().Any(
                it => (it.ContainsKey("check") && (string)it["check"] != own)
                    || ChecksForeign(Items(it, "then"), own) || ChecksForeign(Items(it, "else"), own));
        }

        private Steps Body(IEnumerable<object> statements)
        {
            var steps = new Steps();
            foreach (object it in statements)
            {
                Add(steps, it);
            }
            return steps;
        }

        private void Add(Steps steps, object statement)
        {
            var word = statement as string;
            if (word != null)
            {
                steps.Append(word == "return" ? new Steps().Return() : new Steps().Observe());
                return;
            }
            var members = (Dictionary<string, object>)statement;
            string kind = members.Keys.First(it => it != "then" && it != "else" && it != "may_fail");
            var name = (string)members[kind];
            switch (kind)
            {
                case "throw": steps.Throw(name); break;
                case "check": steps.Check(tokens[name]); break;
                case "cancel": steps.Cancel(tokens[name]); break;
                case "start": steps.Start(graph[name]); break;
                case "work": AddJob(steps, name, Member(statement, "may_fail", false)); break;
                case "if": steps.If(inputs[name], Body(Items(statement, "then")), Body(Items(statement, "else"))); break;
                case "when": steps.When(Final(name), Body(Items(statement, "then")), Body(Items(statement, "else"))); break;
                default: throw new FormatException("no statement: " + kind);
            }
        }

        private void AddJob(Steps steps, string site, bool mayFail)
        {
            if (isAwaited)
            {
                steps.Work(site, Jobs.Later, mayFail);
            }
            else
            {
                steps.Work(site, Jobs.Short, mayFail);
            }
        }

        private void ReadStart()
        {
            var start = Member(document, "start", new Dictionary<string, object>());
            foreach (KeyValuePair<string, object> value in Member(start, "inputs", new Dictionary<string, object>()))
            {
                inputs[value.Key].Value = (bool)value.Value;
            }
            Requests = Tokens(Items(start, "request"));
            Failing = new HashSet<string>(Items(start, "fail").Cast<string>());
        }
    }
}
