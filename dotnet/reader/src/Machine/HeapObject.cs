using System.Collections.Generic;
using System.Linq;

namespace TaskGraph.Reading
{
    /// <summary>The fields of an object that is followed, and its items if it is a list.</summary>
    internal sealed class HeapObject
    {
        public HeapObject(IEnumerable<Value> items = null)
        {
            Items = items?.ToList();
        }

        private HeapObject(HeapObject other)
            : this(other.Items)
        {
            Fields = new Dictionary<string, Value>(other.Fields);
            Position = other.Position;
        }

        public Dictionary<string, Value> Fields { get; } = new Dictionary<string, Value>();

        /// <summary>The items of a list or an array; null for another object.</summary>
        public List<Value> Items { get; }

        /// <summary>Where an enumerator stands; null for what is none.</summary>
        public int? Position { get; set; }

        public HeapObject Clone() => new HeapObject(this);
    }
}
