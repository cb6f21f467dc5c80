using System.Collections.Generic;
using System.Linq;
using System.Text.RegularExpressions;

namespace TaskGraph.Internals
{
    /// <summary>Puts the line of C# that declares a task beside each event of it.</summary>
    internal static class EventLines
    {
        private const int Column = 44;

        private static readonly Regex Event = new Regex("^ *w[0-9]+ [a-z]+ ([A-Za-z0-9_]+)( .*)?$");

        /// <summary>The same text, in which each event of a task whose line is known has that behind it.</summary>
        internal static string Beside(IEnumerable<GraphTask> tasks, string text)
        {
            Dictionary<string, string> origins = tasks.Where(it => it.Origin != null).ToDictionary(it => it.Name, it => it.Origin);
            return string.Join("\n", text.Split('\n').Select(it => Beside(origins, it)));
        }

        private static string Beside(Dictionary<string, string> origins, string line)
        {
            Match found = Event.Match(line);
            string origin;
            return found.Success && origins.TryGetValue(found.Groups[1].Value, out origin) ? line.PadRight(Column) + "// " + origin : line;
        }
    }
}
