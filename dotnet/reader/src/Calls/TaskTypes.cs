using System;
using System.Collections.Generic;
using System.Linq;

namespace TaskGraph.Reading
{
    /// <summary>The types of the Task Parallel Library whose calls have rules.</summary>
    internal static class TaskTypes
    {
        private static readonly HashSet<string> Names = new HashSet<string>(
            new[] { "Task", "Task`1", "TaskFactory", "TaskFactory`1", "TaskExtensions", "ValueTask", "ValueTask`1" }.Select(it => Types.Tasks + it));

        public static bool Has(Call call) => Names.Contains(call.Type);
    }
}
