using System;

namespace TaskGraph.Reading
{
    /// <summary>A way on from a fork, and what it does to a copy of the state.</summary>
    internal sealed class Choice
    {
        public Choice(Way way, Action<PathState> take)
        {
            Way = way;
            Take = take;
        }

        public Way Way { get; }

        public Action<PathState> Take { get; }
    }
}
