using System.Collections.Generic;

namespace TaskGraph.Reading
{
    /// <summary>The number that WaitAny gives: which of its tasks ended first, and a document doesn't say which.</summary>
    internal sealed class WinnerIndex : Value
    {
        public WinnerIndex(PathTask any)
        {
            Any = any;
        }

        public PathTask Any { get; }

        public override string Key => "index" + Any.Id;

        // the first task has the number 0
        public override bool? Truth => null;

        /// <summary>The item of a list at this number: the winner, where the list is that of the tasks; null where it is another one.</summary>
        public Value In(IReadOnlyList<Value> items)
        {
            for (int at = 0; at < Any.Of.Count; at++)
            {
                if (at >= items.Count || !(items[at] is TaskValue task) || task.Task != Any.Of[at])
                {
                    return null;
                }
            }
            return new WinnerValue(Any);
        }
    }
}
