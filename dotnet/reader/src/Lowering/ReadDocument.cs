using System.Collections.Generic;
using System.Linq;

namespace TaskGraph.Reading
{
    /// <summary>A document that was read.</summary>
    internal sealed class ReadDocument
    {
        private const int Version = 3;

        public ReadDocument(
            IEnumerable<DocumentTask> tasks, IReadOnlyList<string> inputs, IReadOnlyDictionary<PathToken, string> tokens, string ends)
        {
            Tasks = InOrder(tasks);
            Inputs = inputs;
            Tokens = tokens;
            Ends = ends;
        }

        /// <summary>The tasks, each behind those that it names.</summary>
        public IReadOnlyList<DocumentTask> Tasks { get; }

        public IReadOnlyList<string> Inputs { get; }

        /// <summary>The name of each token, in the order in which they are written.</summary>
        public IReadOnlyDictionary<PathToken, string> Tokens { get; }

        /// <summary>The task that ends as the method does; null where it always runs to completion.</summary>
        public string Ends { get; }

        /// <summary>Writes the document.</summary>
        /// <param name="note">The note of the whole document; null for none, and then no task has one.</param>
        /// <param name="claims">The claims as a list in JSON; null for none.</param>
        public string ToJson(string note, string claims)
        {
            var members = new List<string> { JsonText.Member("version", Version.ToString()) };
            if (!string.IsNullOrEmpty(note))
            {
                members.Add(JsonText.Member("note", JsonText.Of(note)));
            }
            if (Inputs.Count > 0)
            {
                members.Add(JsonText.Member("inputs", JsonText.Names(Inputs)));
            }
            if (Tokens.Count > 0)
            {
                members.Add(JsonText.Member("tokens", JsonText.List(Tokens.Keys.Select(TokenJson))));
            }
            IEnumerable<string> tasks = Tasks.Select(it => "\n  " + it.ToJson(it.Token == null
                ? null
                : Tokens[it.Token], note != null));
            members.Add(JsonText.Member("tasks", "[" + string.Join(",", tasks) + "\n]"));
            if (claims != null)
            {
                members.Add(JsonText.Member("claims", claims));
            }
            return "{" + string.Join(",\n", members) + "}";
        }

        private string TokenJson(PathToken token)
        {
            string name = JsonText.Of(Tokens[token]);
            return token.Linked.Count == 0
                ? name
                : JsonText.Object(new[] { JsonText.Member("name", name), JsonText.Member("linked", JsonText.Names(token.Linked.Select(it => Tokens[it]))) });
        }

        private static List<DocumentTask> InOrder(IEnumerable<DocumentTask> tasks)
        {
            var ordered = new List<DocumentTask>();
            var seen = new HashSet<DocumentTask>();
            foreach (DocumentTask task in tasks)
            {
                Put(task, seen, ordered);
            }
            return ordered;
        }

        private static void Put(DocumentTask task, HashSet<DocumentTask> seen, List<DocumentTask> ordered)
        {
            if (!seen.Add(task))
            {
                return;
            }
            if (task.After != null)
            {
                Put(task.After, seen, ordered);
            }
            task.Of.ForEach(it => Put(it, seen, ordered));
            ordered.Add(task);
        }
    }
}
