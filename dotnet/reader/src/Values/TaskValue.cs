using System.Threading.Tasks;

namespace TaskGraph.Reading
{
    /// <summary>A task that was made on the path.</summary>
    internal sealed class TaskValue : Value
    {
        public TaskValue(PathTask task, bool isOuter = false)
        {
            Task = task;
            IsOuter = isOuter;
        }

        public PathTask Task { get; }

        /// <summary>Whether it is the task of a body that returns a task: it ends at that body's first await.</summary>
        public bool IsOuter { get; }

        public override string Key => "t" + Task.Id + (IsOuter ? "o" : "");
    }
}
