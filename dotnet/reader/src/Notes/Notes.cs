using System.Collections.Generic;
using System.Linq;

namespace TaskGraph.Reading
{
    /// <summary>What was taken for granted while a method was read, and where.</summary>
    internal sealed class Notes
    {
        private readonly SortedDictionary<Assumption, List<string>> places = new SortedDictionary<Assumption, List<string>>();

        /// <summary>Each assumption that was used once, with the places.</summary>
        public IReadOnlyList<string> Lines =>
            places.Select(it => Assumptions.SentenceOf(it.Key) + ": " + string.Join("; ", it.Value)).ToList();

        public IEnumerable<Assumption> Used => places.Keys;

        public void Add(Assumption assumption, string place, string detail = null)
        {
            if (!places.TryGetValue(assumption, out List<string> known))
            {
                places[assumption] = known = new List<string>();
            }
            string text = detail == null ? place : place + " (" + detail + ")";
            if (!known.Contains(text))
            {
                known.Add(text);
            }
        }
    }
}
