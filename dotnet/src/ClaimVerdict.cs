using System;
using System.Collections.Generic;
using System.Diagnostics.CodeAnalysis;
using System.Linq;
using System.Text.RegularExpressions;

namespace TaskGraph
{
    /// <summary>The verdict on a claim of a graph.</summary>
    /// <remarks>Given by <see cref="TaskGraphBuilder.Verdicts"/>.</remarks>
    public sealed class ClaimVerdict
    {
        private const string Indent = "  ";

        // the name of a claim stands in quotes, and may have quotes and more itself; its words have none
        private static readonly Regex First = new Regex("^claim ([0-9]+)(?: \".*\")? (holds|empty|fails|unknown): ([^\"]*)$");

        private readonly string first;

        private ClaimVerdict(string first, IReadOnlyList<string> lines, Func<int, string> nameOf)
        {
            GroupCollection found = First.Match(first).Groups;
            this.first = first;
            Claim = int.Parse(found[1].Value);
            Name = nameOf(Claim);
            Verdict = (Verdict)Enum.Parse(typeof(Verdict), found[2].Value, ignoreCase: true);
            Text = found[3].Value;
            Lines = lines;
        }

        /// <summary>The number of the claim, from 1, in the order in which they were declared.</summary>
        public int Claim { get; }

        /// <summary>The claim's name; null for none.</summary>
        [MaybeNull]
        public string Name { get; }

        /// <summary>What is known of it.</summary>
        public Verdict Verdict { get; }

        /// <summary>The claim in words.</summary>
        public string Text { get; }

        /// <summary>Why the verdict isn't <see cref="TaskGraph.Verdict.Holds"/>: the events of the run in which the claim fails, the
        /// line that says so and how the run came to it; the reason for which it says nothing; or how far it was tried. Empty where
        /// it holds.</summary>
        public IReadOnlyList<string> Lines { get; }

        /// <summary>Gives the words of the program.</summary>
        public override string ToString() => string.Join("\n" + Indent, new[] { first }.Concat(Lines));

        /// <summary>The verdicts that taskgraph verify wrote as text.</summary>
        internal static IReadOnlyList<ClaimVerdict> AllOf(string output, Func<int, string> nameOf)
        {
            string[] lines = output.Split('\n');
            IEnumerable<int> firsts = Enumerable.Range(0, lines.Length).Where(it => First.IsMatch(lines[it]));
            return firsts.Select(it => new ClaimVerdict(lines[it], Further(lines, it), nameOf)).ToArray();
        }

        /// <summary>The lines that belong to the claim whose first line stands here.</summary>
        private static string[] Further(string[] lines, int place)
        {
            IEnumerable<string> indented = lines.Skip(place + 1).TakeWhile(it => it.StartsWith(Indent, StringComparison.Ordinal));
            return indented.Select(it => it.Substring(Indent.Length)).ToArray();
        }
    }
}
