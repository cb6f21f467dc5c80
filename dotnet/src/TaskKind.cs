namespace TaskGraph.Internals
{
    /// <summary>How a task comes to be.</summary>
    internal enum TaskKind
    {
        /// <summary>Task.Run, Task.Factory.StartNew.</summary>
        Root,

        /// <summary>Task.Factory.StartNew inside a body.</summary>
        Child,

        /// <summary>Task.ContinueWith.</summary>
        Then,

        /// <summary>Task.WhenAll.</summary>
        All,

        /// <summary>Task.WhenAny.</summary>
        Any,
    }
}
