using System.Collections.Generic;
using System.Linq;
using System.Threading.Tasks;

namespace TaskGraph.Reading
{
    /// <summary>What a claim takes as given: it speaks only of the runs in which all of this is so.</summary>
    /// <remarks>Made by <see cref="ReadGraph.Given"/>, and handed to a claim.</remarks>
    public sealed class ReadGiven
    {
        private readonly ReadGraph graph;
        private readonly List<string> texts = new List<string>();

        internal ReadGiven(ReadGraph graph)
        {
            this.graph = graph;
        }

        /// <summary>What is given, as a document has it.</summary>
        internal IReadOnlyList<string> Texts => texts;

        /// <summary>Nobody requests these tokens.</summary>
        public ReadGiven Quiet(params string[] tokens) => AddAll(tokens.Select(it => ReadClaims.Member("quiet", it)));

        /// <summary>The input has this value.</summary>
        public ReadGiven Input(string input, bool value) =>
            AddAll(new[] { ReadClaims.Member("input", input) + ", " + JsonText.Member("is", value ? "true" : "false") });

        /// <summary>The task, if it has ended, did so in one of these ways: RanToCompletion, Canceled, Faulted.</summary>
        /// <exception cref="System.ArgumentException">The document has no such task.</exception>
        public ReadGiven Ended(string task, params TaskStatus[] ends) =>
            AddAll(new[] { ReadClaims.Member("ended", graph.Claims.Checked(task)) + ", " + ReadClaims.Ways(ends) });

        /// <summary>These jobs don't fail.</summary>
        public ReadGiven Succeeds(params string[] jobs) => AddAll(jobs.Select(it => ReadClaims.Member("succeeds", it)));

        /// <summary>No job fails.</summary>
        public ReadGiven NoFailure() => AddWord("no_failure");

        /// <summary>Nobody requests a token.</summary>
        public ReadGiven NoRequest() => AddWord("no_request");

        private ReadGiven AddWord(string word)
        {
            texts.Add(JsonText.Of(word));
            return this;
        }

        private ReadGiven AddAll(IEnumerable<string> members)
        {
            texts.AddRange(members.Select(it => "{" + it + "}"));
            return this;
        }
    }
}
