using System.Collections.Generic;

namespace TaskGraph.Reading
{
    /// <summary>A cancellation token of the document.</summary>
    internal sealed class PathToken
    {
        public PathToken(int id, string name, string origin, bool isOwn = false)
        {
            Id = id;
            Name = name;
            Origin = origin;
            IsOwn = isOwn;
        }

        public int Id { get; }

        public string Name { get; }

        /// <summary>The line that makes it.</summary>
        public string Origin { get; }

        /// <summary>Whether it stands for a task that may end Canceled by itself, and for no token of the code.</summary>
        public bool IsOwn { get; }

        /// <summary>The tokens to which it is linked.</summary>
        public List<PathToken> Linked { get; } = new List<PathToken>();
    }
}
