using System.Collections.Generic;

namespace TaskGraph.Reading
{
    /// <summary>The rules for calls. The first one that is about a call says what it does; a call that none is about is a
    /// job.</summary>
    internal sealed class CallRules
    {
        private readonly Machine machine;
        private readonly IReadOnlyList<ICallRule> rules;

        public CallRules(Machine machine)
        {
            this.machine = machine;
            rules = new ICallRule[]
            {
                new BuilderCalls(machine), new AwaiterCalls(machine), new ParallelCalls(machine), new TaskCalls(machine), new StartCalls(machine),
                new JoinCalls(machine), new WaitCalls(machine), new StatusCalls(machine), new OtherTaskCalls(), new SourceCalls(machine),
                new TokenCalls(machine), new CompletionCalls(machine), new ExceptionCalls(machine), new ListCalls(machine), new LinqCalls(machine),
                new SpanCalls(machine), new DelegateCalls(machine), new LibraryCalls(machine), new OwnCalls(machine),
            };
        }

        public PathNode Run(Call call)
        {
            foreach (ICallRule rule in rules)
            {
                if (rule.TryRun(call, out PathNode next))
                {
                    return next;
                }
            }
            return machine.Jobs.Run(call, Naming.OfCall(call.Method));
        }
    }
}
