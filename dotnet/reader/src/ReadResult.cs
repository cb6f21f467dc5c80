using System.Collections.Generic;
using System.Linq;
using Mono.Cecil;

namespace TaskGraph.Reading
{
    /// <summary>A document that was read of a method, with what it takes for granted.</summary>
    internal sealed class ReadResult
    {
        public ReadResult(MethodDefinition method, ReadDocument document, Notes notes)
        {
            Document = document;
            string written = Naming.Written(method);
            string ends = "read from " + written + (document.Ends == null ? "" : ", which ends as " + document.Ends);
            Lines = new[] { ends }.Concat(notes.Lines).ToList();
            Assumptions = notes.Used.ToList();
        }

        public ReadDocument Document { get; }

        /// <summary>How the method ends, and each assumption that was used.</summary>
        public IReadOnlyList<string> Lines { get; }

        public IReadOnlyList<Assumption> Assumptions { get; }

        /// <summary>The document, with what it takes for granted as its note.</summary>
        public string ToJson(bool hasNotes = true, string claims = null) =>
            Document.ToJson(hasNotes ? string.Join("\n", Lines) : null, claims);
    }
}
