using System;
using System.Collections.Generic;
using System.Linq;
using System.Text.RegularExpressions;
using System.Threading;
using System.Threading.Tasks;

namespace TaskGraph.Reading
{
    /// <summary>Asks whether a document has a run in which its tasks end in given ways.</summary>
    internal sealed class RunComparison
    {
        private const string Nothing = "Nothing_", Never = "Never_";
        private const string Begun = "claim 1 fails", Refuted = "claim 1 holds", Empty = "claim 1 empty";

        private static readonly Regex Ended = new Regex("\"ended\"\\s*:\\s*\\{([^}]*)\\}");
        private static readonly Regex End = new Regex("\"([^\"]*)\"\\s*:\\s*\"([^\"]*)\"");

        private readonly ReadDocument document;
        private readonly TimeSpan? limit;
        private readonly CancellationToken token;

        /// <param name="document">The document.</param>
        /// <param name="limit">How long the call of the program may take; null for ten minutes.</param>
        /// <param name="token">Ends the call.</param>
        public RunComparison(ReadDocument document, TimeSpan? limit, CancellationToken token)
        {
            this.document = document;
            this.limit = limit;
            this.token = token;
        }

        /// <summary>How the tasks ended by the member "ended" of a recorded run.</summary>
        /// <exception cref="ArgumentException">There is no such member.</exception>
        public static IReadOnlyDictionary<string, TaskStatus> EndsOf(string run)
        {
            Match found = Ended.Match(run);
            if (!found.Success)
            {
                throw new ArgumentException("the run has no member \"ended\"; hand over the text of run.ToJson()");
            }
            return End.Matches(found.Groups[1].Value).Cast<Match>()
                .ToDictionary(it => it.Groups[1].Value, it => (TaskStatus)Enum.Parse(typeof(TaskStatus), it.Groups[2].Value));
        }

        public void Demand(IReadOnlyDictionary<string, TaskStatus> ends)
        {
            string missing = ends.Keys.FirstOrDefault(it => document.Tasks.All(task => task.Name != it));
            if (missing != null)
            {
                throw new ArgumentException("the document has no task " + missing + "; it has " + string.Join(", ", document.Tasks.Select(it => it.Name)));
            }
            ProgramCall answer = ProgramCall.Of("verify", Asked(ends), limit, token);
            if (answer.Output.StartsWith(Begun, StringComparison.Ordinal))
            {
                return;
            }
            bool isNone = answer.Output.StartsWith(Refuted, StringComparison.Ordinal) || answer.Output.StartsWith(Empty, StringComparison.Ordinal);
            string what = string.Join(", ", ends.Select(it => it.Key + " " + it.Value));
            string verdict = isNone ? "the document has no run in which these end so: " : "no run was found in which these end so: ";
            throw new ClaimException(verdict + what + "\n" + answer.Output + answer.Error);
        }

        /// <summary>The document with a task that never begins, and the claim that it does wherever the tasks end so: that
        /// fails just
        /// where there is such a run.</summary>
        private string Asked(IReadOnlyDictionary<string, TaskStatus> ends)
        {
            var nothing = new DocumentTask(Nothing, DocumentTask.Root) { Body = new List<Statement>() };
            var never = new DocumentTask(Never, DocumentTask.Continuation)
            {
                After = nothing, Body = new List<Statement>(), Options = new List<string> { ContinuationFilter.OnlyOnFaulted },
            };
            IEnumerable<string> given = ends.Select(it => JsonText.Object(new[]
            {
                JsonText.Member("ended", JsonText.Of(it.Key)), JsonText.Member("in", JsonText.Names(new[] { it.Value.ToString() })),
            }));
            string claim = JsonText.Object(new[] { JsonText.Member("given", JsonText.List(given)), JsonText.Member("runs", JsonText.Of(Never)) });
            var asked = new ReadDocument(document.Tasks.Concat(new[] { nothing, never }), document.Inputs, document.Tokens, document.Ends);
            return asked.ToJson(null, JsonText.List(new[] { claim }));
        }
    }
}
