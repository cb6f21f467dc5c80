using System;
using System.Linq;

namespace TaskGraph.Reading.Tests
{
    /// <summary>What the tests of cases/test_reader.py run.</summary>
    internal static class Program
    {
        private static void Main(string[] words)
        {
            switch (words[0])
            {
                case "read":
                    Reading.Write(words.Skip(1).ToArray());
                    break;
                case "words":
                    Words.Write(Console.Out);
                    break;
                default:
                    Facts.Write(Console.Out);
                    break;
            }
        }
    }
}
