using System.Linq;
using System.Threading.Tasks;
using TaskGraph.Internals;

namespace TaskGraph.Tests
{
    /// <summary>What each body sees itself of the others: which tasks have ended, right before its begin is recorded and at its first
    /// instruction.</summary>
    internal sealed class Beginnings
    {
        private readonly TaskGraphBuilder graph;
        private readonly int[] calls;
        private readonly string[] before;
        private readonly string[] first;

        internal Beginnings(TaskGraphBuilder graph)
        {
            this.graph = graph;
            calls = new int[graph.AllTasks.Count];
            before = new string[calls.Length];
            first = new string[calls.Length];
        }

        /// <summary>To be called as RunOptions.Delay is: the first call of a body comes before its begin is recorded, the second
        /// one after.</summary>
        internal void See(GraphTask task)
        {
            int call = ++calls[task.Id];
            if (call == 1)
            {
                before[task.Id] = Ended();
            }
            else if (call == 2)
            {
                first[task.Id] = Ended();
            }
        }

        /// <summary>For each task that began, the two lists: a digit for each task, 1 where it has ended.</summary>
        internal string ToJson()
        {
            return Json.Object(graph.AllTasks.Where(it => first[it.Id] != null).Select(MemberOf).ToArray());
        }

        private string MemberOf(GraphTask task)
        {
            return Json.Member(task.Name, Json.List(new[] { Json.Text(before[task.Id]), Json.Text(first[task.Id]) }));
        }

        private string Ended()
        {
            return string.Concat(graph.AllTasks.Select(it => HasEnded(graph.StartedRun[it]) ? "1" : "0"));
        }

        private static bool HasEnded(Task real) => real != null && real.IsCompleted;
    }
}
