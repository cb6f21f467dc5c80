using System;
using System.Linq;

namespace TaskGraph.Reading
{
    /// <summary>Parallel.For and its kin: one job, if its body does nothing but jobs.</summary>
    internal sealed class ParallelCalls : ICallRule
    {
        private readonly Machine machine;

        public ParallelCalls(Machine machine)
        {
            this.machine = machine;
        }

        public bool TryRun(Call call, out PathNode next)
        {
            next = null;
            if (call.Type != Types.Tasks + "Parallel")
            {
                return false;
            }
            if (call.Arguments.OfType<DelegateValue>().Any(machine.Uses.Touches))
            {
                throw call.Refuse(RefusalCode.Parallel, "a body of Parallel." + call.Name + " that touches tasks or tokens");
            }
            DelegateValue body = call.Arguments.OfType<DelegateValue>().LastOrDefault();
            next = machine.Jobs.Run(call.State, call.Method, "Parallel_" + (body == null ? call.Name : Naming.OfBody(body)));
            return true;
        }
    }
}
