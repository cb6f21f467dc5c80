using System.Collections.Generic;
using System.Linq;
using System.Text;

namespace TaskGraph.Reading
{
    /// <summary>Writes JSON.</summary>
    internal static class JsonText
    {
        public static string Of(string text)
        {
            var escaped = new StringBuilder("\"");
            foreach (char letter in text)
            {
                if (letter == '"' || letter == '\\')
                {
                    escaped.Append('\\');
                }
                escaped.Append(letter < ' ' ? "\\u" + ((int)letter).ToString("x4") : letter.ToString());
            }
            return escaped.Append('"').ToString();
        }

        public static string Names(IEnumerable<string> names) => List(names.Select(Of));

        public static string List(IEnumerable<string> items) => "[" + string.Join(", ", items) + "]";

        public static string Member(string name, string value) => Of(name) + ": " + value;

        public static string Object(IEnumerable<string> members) => "{" + string.Join(", ", members) + "}";
    }
}
