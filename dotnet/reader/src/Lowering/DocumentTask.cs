using System;
using System.Collections.Generic;
using System.Linq;

namespace TaskGraph.Reading
{
    /// <summary>A task of a document.</summary>
    internal sealed class DocumentTask
    {
        public const string Root = "root";
        public const string Continuation = "then";
        public const string All = "all";
        public const string Any = "any";
        public const string Child = "child";

        public DocumentTask(string name, string kind)
        {
            Name = name;
            Kind = kind;
        }

        public string Name { get; }

        public string Kind { get; }

        /// <summary>The line from which it comes; null for one that the reader adds.</summary>
        public string Origin { get; set; }

        public DocumentTask After { get; set; }

        public List<DocumentTask> Of { get; set; } = new List<DocumentTask>();

        /// <summary>Its statements; null for a join.</summary>
        public List<Statement> Body { get; set; }

        public PathToken Token { get; set; }

        public List<string> Options { get; set; } = new List<string>();

        /// <summary>The tasks that have to stand before it.</summary>
        public IEnumerable<DocumentTask> Before => After == null ? Of : Of.Concat(new[] { After });

        /// <param name="token">The name of its token; null for none.</param>
        /// <param name="hasNote">Whether its note says from which line it comes.</param>
        public string ToJson(string token, bool hasNote)
        {
            var members = new List<string> { JsonText.Member("name", JsonText.Of(Name)), JsonText.Member("kind", JsonText.Of(Kind)) };
            Add(members, After != null, "after", () => JsonText.Of(After.Name));
            Add(members, Kind == All || Kind == Any, "of", () => JsonText.Names(Of.Select(it => it.Name)));
            Add(members, Body != null, "body", () => JsonText.List(Body.Select(it => it.ToJson())));
            Add(members, token != null, "token", () => JsonText.Of(token));
            Add(members, Options.Count > 0, "options", () => JsonText.Names(Options));
            Add(members, hasNote && !string.IsNullOrEmpty(Origin), "note", () => JsonText.Of(Origin));
            return JsonText.Object(members);
        }

        private static void Add(List<string> members, bool isThere, string name, Func<string> value)
        {
            if (isThere)
            {
                members.Add(JsonText.Member(name, value()));
            }
        }
    }
}
