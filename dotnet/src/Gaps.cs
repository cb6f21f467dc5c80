using System.Collections.Generic;

namespace TaskGraph.Internals
{
    /// <summary>What is to be written into each gap between records; most gaps are empty.</summary>
    internal sealed class Gaps<T>
    {
        private static readonly List<T> Empty = new List<T>();

        private readonly Dictionary<int, List<T>> lists = new Dictionary<int, List<T>>();

        /// <summary>What lies in a gap, to be taken out of the list as it is written.</summary>
        internal List<T> At(int gap)
        {
            List<T> found;
            return lists.TryGetValue(gap, out found) ? found : Empty;
        }

        internal void Add(int gap, T item)
        {
            List<T> found;
            if (!lists.TryGetValue(gap, out found))
            {
                found = new List<T>();
                lists.Add(gap, found);
            }
            found.Add(item);
        }
    }
}
