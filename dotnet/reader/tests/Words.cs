using System;
using System.IO;

namespace TaskGraph.Reading.Tests
{
    /// <summary>The words that docs/READER.md has to have.</summary>
    internal static class Words
    {
        public static void Write(TextWriter to)
        {
            foreach (RefusalCode code in Enum.GetValues(typeof(RefusalCode)))
            {
                to.WriteLine("refusal\t" + Refusals.WordOf(code) + "\t" + Refusals.AdviceOn(code));
            }
            foreach (Assumption assumption in Enum.GetValues(typeof(Assumption)))
            {
                to.WriteLine("assumption\t" + Assumptions.SentenceOf(assumption));
            }
        }
    }
}
