using System.Collections.Generic;
using System.Globalization;
using System.Linq;

namespace TaskGraph.Internals
{
    /// <summary>Writes a graph as a document for taskgraph.</summary>
    internal sealed class GraphDocument
    {
        // the newest one, whatever the graph says: its certificates are judged by the widest rules
        private const string Version = "3";

        private readonly TaskGraphBuilder graph;

        internal GraphDocument(TaskGraphBuilder graph)
        {
            this.graph = graph;
        }

        /// <summary>The graph and its claims.</summary>
        internal string Write() => Write(new string[0]);

        /// <summary>The same with a certificate of the claims.</summary>
        internal string WriteWith(string certificate) => Write(Json.Member("certificate", certificate));

        /// <summary>The same with what was recorded of a run: the journal as far as it says what happened, how each task was seen to end,
        /// and the times.</summary>
        internal string WriteWith(RunAccount run)
        {
            string ends = Json.Object(run.Ends.Select(it => Json.Member(it.Key.Name, Json.Text(it.Value.ToString()))).ToArray());
            string times = Json.List(run.Times.Take(run.Sayable).Select(it => it.ToString(CultureInfo.InvariantCulture)));
            string journal = Json.Text(run.SayableJournal);
            return Write(Json.Member("ended", ends), Json.Member("times", times), Json.Member("journal", journal));
        }

        private string Write(params string[] further)
        {
            var members = new List<string> { Json.Member("version", Version) };
            AddNote(members, graph.Note);
            AddList(members, "inputs", graph.Inputs.Select(it => Json.Text(it.Name)));
            AddList(members, "tokens", graph.Tokens.Select(TokenOf));
            members.Add(Lines("tasks", graph.Tasks.Select(TaskOf)));
            if (graph.Claims.Texts.Count > 0)
            {
                members.Add(Lines("claims", graph.Claims.Texts));
            }
            if (graph.Inputs.Count > 0)
            {
                string values = Json.Object(graph.Inputs.Select(it => Json.Member(it.Name, Json.Bool(it.Value))).ToArray());
                members.Add(Json.Member("start", Json.Object(Json.Member("inputs", values))));
            }
            members.AddRange(further);
            return "{" + string.Join(",\n ", members) + "}\n";
        }

        private static void AddNote(List<string> members, string note)
        {
            if (note != null)
            {
                members.Add(Json.Member("note", Json.Text(note)));
            }
        }

        private static void AddList(List<string> members, string name, IEnumerable<string> items)
        {
            if (items.Any())
            {
                members.Add(Json.Member(name, Json.List(items)));
            }
        }

        private static string Lines(string name, IEnumerable<string> items)
        {
            return Json.Member(name, "[\n  " + string.Join(",\n  ", items) + "]");
        }

        private static string Names(IEnumerable<GraphTask> tasks) => Json.List(tasks.Select(it => Json.Text(it.Name)));

        private static string TokenOf(GraphToken token)
        {
            if (token.Sources.Length == 0)
            {
                return Json.Text(token.Name);
            }
            string linked = Json.List(token.Sources.Select(it => Json.Text(it.Name)));
            return Json.Object(Json.Member("name", Json.Text(token.Name)), Json.Member("linked", linked));
        }

        private static string TaskOf(GraphTask task)
        {
            var members = new List<string>
            {
                Json.Member("name", Json.Text(task.Name)), Json.Member("kind", Json.Text(task.Kind.ToString().ToLowerInvariant())),
            };
            AddNote(members, task.Noted);
            if (task.Antecedent != null)
            {
                members.Add(Json.Member("after", Json.Text(task.Antecedent.Name)));
            }
            if (task.Of != null)
            {
                members.Add(Json.Member("of", Names(task.Of)));
            }
            if (task.Body != null)
            {
                members.Add(Json.Member("body", BodyOf(task.Body)));
            }
            if (task.Token != null)
            {
                members.Add(Json.Member("token", Json.Text(task.Token.Name)));
            }
            AddList(members, "options", OptionWords.Of(task.Options).Select(Json.Text));
            return Json.Object(members.ToArray());
        }

        private static string BodyOf(Steps body) => Json.List(body.List.Select(StatementOf));

        private static string StatementOf(Step step)
        {
            switch (step.Kind)
            {
                case StepKind.Return: return Json.Text("return");
                case StepKind.Observe: return Json.Text("observe");
                case StepKind.Throw: return Statement("throw", step.Text);
                case StepKind.Check: return Statement("check", step.Token.Name);
                case StepKind.Cancel: return Statement("cancel", step.Token.Name);
                case StepKind.Start: return Statement("start", step.Child.Name);
                case StepKind.Work: return step.MayFail ? MayFail(step.Text) : Statement("work", step.Text);
                case StepKind.If: return Branch(Json.Member("if", Json.Text(step.Input.Name)), step);
                default: return Branch(Json.Member("when", Json.Text(step.Final.ToString())), step);
            }
        }

        private static string Statement(string word, string name) => Json.Object(Json.Member(word, Json.Text(name)));

        private static string MayFail(string site)
        {
            return Json.Object(Json.Member("work", Json.Text(site)), Json.Member("may_fail", Json.Bool(true)));
        }

        private static string Branch(string asked, Step step)
        {
            string then = Json.Member("then", BodyOf(step.Then));
            return step.Otherwise.List.Count == 0
                ? Json.Object(asked, then)
                : Json.Object(asked, then, Json.Member("else", BodyOf(step.Otherwise)));
        }
    }
}
