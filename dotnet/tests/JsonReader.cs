using System;
using System.Collections.Generic;
using System.Text;

namespace TaskGraph.Tests
{
    /// <summary>Reads JSON as the tests write it: objects, arrays, texts without escapes but those of names, whole numbers.</summary>
    internal sealed class JsonReader
    {
        private readonly string text;
        private int place;

        private JsonReader(string text)
        {
            this.text = text;
        }

        /// <summary>Gives a Dictionary, a List, a string, a bool or an int.</summary>
        internal static object Read(string text) => new JsonReader(text).Value();

        private object Value()
        {
            SkipSpace();
            switch (text[place])
            {
                case '{': return Object();
                case '[': return Array();
                case '"': return Text();
                default: return Word();
            }
        }

        private Dictionary<string, object> Object()
        {
            var members = new Dictionary<string, object>();
            while (IsMore('{', '}'))
            {
                SkipSpace();
                string name = Text();
                SkipSpace();
                Take(':');
                members[name] = Value();
            }
            return members;
        }

        private List<object> Array()
        {
            var items = new List<object>();
            while (IsMore('[', ']'))
            {
                items.Add(Value());
            }
            return items;
        }

        /// <summary>Passes what opens, divides or closes a list; gives whether an item follows.</summary>
        private bool IsMore(char opening, char closing)
        {
            SkipSpace();
            char passed = text[place++];
            SkipSpace();
            if (passed == opening && text[place] == closing)
            {
                place++;
                return false;
            }
            return passed != closing;
        }

        private string Text()
        {
            Take('"');
            var read = new StringBuilder();
            while (text[place] != '"')
            {
                read.Append(text[place++]);
            }
            Take('"');
            return read.ToString();
        }

        private object Word()
        {
            int start = place;
            while (place < text.Length && (char.IsLetterOrDigit(text[place]) || text[place] == '-'))
            {
                place++;
            }
            string word = text.Substring(start, place - start);
            return word == "true" ? true : word == "false" ? false : (object)int.Parse(word);
        }

        private void SkipSpace()
        {
            while (place < text.Length && char.IsWhiteSpace(text[place]))
            {
                place++;
            }
        }

        private void Take(char expected)
        {
            if (text[place++] != expected)
            {
                throw new FormatException("expected " + expected + " before place " + place);
            }
        }
    }
}
