using System.Collections.Generic;
using System.Linq;

namespace TaskGraph.Internals
{
    /// <summary>Writes JSON.</summary>
    internal static class Json
    {
        private const char FirstPlain = ' ';

        internal static string Text(string text)
        {
            string escaped = text.Replace("\\", "\\\\").Replace("\"", "\\\"").Replace("\n", "\\n");
            return "\"" + (escaped.Any(IsControl) ? string.Concat(escaped.Select(Escaped)) : escaped) + "\"";
        }

        internal static string Bool(bool value) => value ? "true" : "false";

        internal static string List(IEnumerable<string> items) => "[" + string.Join(",", items) + "]";

        internal static string Member(string name, string value) => Text(name) + ":" + value;

        internal static string Object(params string[] members) => "{" + string.Join(",", members) + "}";

        private static bool IsControl(char it) => it < FirstPlain;

        private static string Escaped(char it) => IsControl(it) ? "\\u" + ((int)it).ToString("x4") : it.ToString();
    }
}
