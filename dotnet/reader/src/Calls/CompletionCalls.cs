using System;

namespace TaskGraph.Reading
{
    /// <summary>TaskCompletionSource: its task ends by the outside.</summary>
    internal sealed class CompletionCalls : ICallRule
    {
        private readonly Machine machine;

        public CompletionCalls(Machine machine)
        {
            this.machine = machine;
        }

        public static bool Has(string type) =>
            type == Types.Tasks + "TaskCompletionSource" || type == Types.Tasks + "TaskCompletionSource`1";

        public bool TryRun(Call call, out PathNode next)
        {
            next = null;
            if (!Has(call.Type))
            {
                return false;
            }
            next = call.Name == "get_Task" ? call.Give(TaskOf(call)) : call.GiveIfAny(machine.Fresh("was_set"));
            return true;
        }

        private Value TaskOf(Call call) => call.Target is Mark mark && mark.Kind == MarkKind.Completion
            ? mark.About
            : machine.Outside.ValueOf("tcs " + call.Target.Key, "completion", call.Method.ReturnType, call.Where);
    }
}
