using System;
using System.Linq;

namespace TaskGraph.Reading
{
    /// <summary>A call of the Task Parallel Library that no rule is about is refused.</summary>
    internal sealed class OtherTaskCalls : ICallRule
    {
        public bool TryRun(Call call, out PathNode next)
        {
            next = null;
            if (TaskTypes.Has(call) && (call.Target is TaskValue || call.Arguments.Any(it => it is TaskValue)))
            {
                throw call.Refuse(RefusalCode.Task, call.Type + "." + call.Name + " isn't read");
            }
            return false;
        }
    }
}
