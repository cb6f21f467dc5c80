using Mono.Cecil;

namespace TaskGraph.Reading
{
    /// <summary>Awaits, and waits by an awaiter.</summary>
    internal sealed class AwaiterCalls : ICallRule
    {
        private readonly Machine machine;

        public AwaiterCalls(Machine machine)
        {
            this.machine = machine;
        }

        public bool TryRun(Call call, out PathNode next)
        {
            next = null;
            if (call.Name == "GetAwaiter")
            {
                next = call.Give(AwaiterOf(call));
            }
            else if (call.Name == "ConfigureAwait")
            {
                next = call.Give(call.Target ?? call.Arguments[0]);
            }
            else if (call.Target is AwaiterValue && call.Name == "get_IsCompleted")
            {
                next = call.Give(Number.Of(true));
            }
            else if (call.Target is AwaiterValue awaiter && call.Name == "GetResult")
            {
                next = machine.Waits.Await(call, awaiter.Awaited, call.HasResult, isAggregate: false);
            }
            else
            {
                return false;
            }
            return true;
        }

        private AwaiterValue AwaiterOf(Call call)
        {
            if (!(call.Target is Unknown value))
            {
                return new AwaiterValue(call.Target);
            }
            TypeReference type = call.Method.DeclaringType;
            if (!Types.IsTask(type))
            {
                throw call.Refuse(RefusalCode.Await, "an await of a " + type.Name + ", which isn't followed");
            }
            return new AwaiterValue(machine.Outside.ValueOf("value " + value.Id, value.Name, type, call.Where));
        }
    }
}
