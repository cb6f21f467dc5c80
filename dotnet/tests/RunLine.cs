using System;
using System.Collections.Generic;
using System.IO;
using System.Linq;
using TaskGraph.Internals;

namespace TaskGraph.Tests
{
    /// <summary>Writes what came of a run, as one line of JSON for the script dotnet/test_library.py.</summary>
    internal static class RunLine
    {
        internal static void Write(TextWriter to, string name, GraphRun run, bool hasEnded, Beginnings begins = null)
        {
            string notes = Json.List(run.Notes.Select(it => Json.Text(it.ToString())));
            var members = new List<string>
            {
                Json.Member("name", Json.Text(name)), Json.Member("ended", Json.Bool(hasEnded)), Json.Member("notes", notes),
                Json.Member("document", run.ToJson().Replace("\n", "")), Json.Member("journal", Json.Text(run.Journal)),
            };
            if (begins != null)
            {
                members.Add(Json.Member("begins", begins.ToJson()));
            }
            to.WriteLine(Json.Object(members.ToArray()));
        }
    }
}
