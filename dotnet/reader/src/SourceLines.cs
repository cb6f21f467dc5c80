using System;
using System.Collections.Generic;
using System.Linq;
using System.Text.RegularExpressions;

namespace TaskGraph.Reading
{
    /// <summary>The lines of the code beside what the program says.</summary>
    internal sealed class SourceLines
    {
        private const string Indent = "  ";
        private const int Column = 44;
        private const int TaskWord = 2;

        // an event of a run, which a worker or somebody outside does
        private static readonly Regex Event = new Regex("^[wo][0-9]+ ");

        private readonly Dictionary<string, string> lines;

        public SourceLines(ReadDocument document)
        {
            lines = document.Tasks.Where(it => !string.IsNullOrEmpty(it.Origin)).ToDictionary(it => it.Name, it => it.Origin);
        }

        /// <summary>An answer, in which the line of its task stands beside each event of a run.</summary>
        public string Beside(string answer) => string.Join("\n", answer.Split('\n').Select(OfLine));

        private string OfLine(string line)
        {
            string text = line.Trim();
            string[] words = text.Split(' ');
            bool isEvent = line.StartsWith(Indent, StringComparison.Ordinal) && Event.IsMatch(text) && words.Length > TaskWord;
            return isEvent && lines.TryGetValue(words[TaskWord], out string origin)
                ? line.PadRight(Column) + "// " + origin
                : line;
        }
    }
}
