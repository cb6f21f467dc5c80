using System.Reflection;
using System.Threading.Tasks;

namespace TaskGraph.Internals
{
    /// <summary>The winner of a WhenAny task.</summary>
    internal static class Winner
    {
        /// <summary>The winner of a WhenAny task that has ended; null where this is another task.</summary>
        internal static Task Of(Task whenAny)
        {
            var plain = whenAny as Task<Task>;
            if (plain != null)
            {
                return plain.Result;
            }
            // a WhenAny over tasks with results is a Task<Task<..>>
            PropertyInfo result = whenAny.GetType().GetProperty("Result");
            return result == null ? null : result.GetValue(whenAny, null) as Task;
        }
    }
}
