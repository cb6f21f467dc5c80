using System.Collections.Generic;

namespace TaskGraph.Reading
{
    /// <summary>All paths through a method, of which a lowering makes a document.</summary>
    internal sealed class MethodPaths
    {
        public MethodPaths(string name, PathNode root, IReadOnlyList<PathTask> tasks, IReadOnlyDictionary<string, string> inputs)
        {
            Name = name;
            Root = root;
            Tasks = tasks;
            Inputs = inputs;
        }

        /// <summary>The method's name.</summary>
        public string Name { get; }

        public PathNode Root { get; }

        public IReadOnlyList<PathTask> Tasks { get; }

        /// <summary>The name of each value that a branch asks for.</summary>
        public IReadOnlyDictionary<string, string> Inputs { get; }
    }
}
