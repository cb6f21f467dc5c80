using System.Collections.Generic;
using System.Linq;

namespace TaskGraph.Reading
{
    /// <summary>A lambda that runs for each item of a list: what it has given so far, and the items that are left.</summary>
    internal sealed class Collection
    {
        private readonly IReadOnlyList<Value> left;

        public Collection(DelegateValue lambda, IReadOnlyList<Value> left, IReadOnlyList<Value> made)
        {
            Lambda = lambda;
            this.left = left;
            Made = made;
        }

        public DelegateValue Lambda { get; }

        /// <summary>What the lambda has given.</summary>
        public IReadOnlyList<Value> Made { get; }

        public bool IsOver => left.Count == 0;

        /// <summary>The item for which it runs now.</summary>
        public Value Item => left[0];

        /// <summary>The values that are still needed.</summary>
        public IEnumerable<Value> Held => left.Concat(Made);

        public string Key => " for" + left.Count + string.Concat(Made.Select(it => "," + it.Key));

        /// <summary>The same once the lambda has given a value for its item.</summary>
        public Collection With(Value given) =>
            new Collection(Lambda, left.Skip(1).ToList(), Made.Concat(new[] { given }).ToList());
    }
}
