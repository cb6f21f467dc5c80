using System.Collections.Generic;
using System.Linq;

namespace TaskGraph.Reading
{
    /// <summary>A task that is made on a path.</summary>
    internal sealed class PathTask
    {
        public PathTask(int id, TaskShape shape, string name, string origin)
        {
            Id = id;
            Shape = shape;
            Name = name;
            Origin = origin;
        }

        public int Id { get; }

        public TaskShape Shape { get; }

        public string Name { get; }

        /// <summary>The line that makes it.</summary>
        public string Origin { get; }

        /// <summary>Whether its job throws nothing.</summary>
        public bool IsSafe { get; set; }

        public PathToken Token { get; set; }

        public List<string> Options { get; set; } = new List<string>();

        /// <summary>The task that it continues; null for none.</summary>
        public PathTask After { get; set; }

        /// <summary>The tasks that a WhenAll or WhenAny waits for.</summary>
        public List<PathTask> Of { get; set; } = new List<PathTask>();

        /// <summary>The first node of its body.</summary>
        public PathNode Body { get; set; }

        /// <summary>Whether it ends at its body's first await, as nobody unwraps it.</summary>
        public bool IsOuter { get; set; }

        /// <summary>Whether it is made at once, outside of every path: a task that is handed to the method.</summary>
        public bool IsOutside { get; set; }

        /// <summary>Whether its options exclude an end of its antecedent.</summary>
        public bool Excludes => After != null && Options.Any(ContinuationFilter.IsFilter);
    }
}
