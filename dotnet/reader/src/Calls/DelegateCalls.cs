using System.Linq;
using Mono.Cecil;

namespace TaskGraph.Reading
{
    /// <summary>A call of a delegate that is known.</summary>
    internal sealed class DelegateCalls : ICallRule
    {
        private readonly Machine machine;

        public DelegateCalls(Machine machine)
        {
            this.machine = machine;
        }

        public bool TryRun(Call call, out PathNode next)
        {
            next = null;
            if (call.Name != "Invoke" || !(call.Target is DelegateValue value))
            {
                return false;
            }
            MethodDefinition method = Types.Find(value.Method);
            if (method == null || !method.HasBody || !machine.Uses.Touches(method) || method.IsVirtual)
            {
                next = machine.Jobs.Run(call.With(value.Method), Naming.OfBody(value));
                return true;
            }
            machine.Enter(call.State, method, method.HasThis ? new[] { value.Target }.Concat(call.Arguments) : call.Arguments);
            return true;
        }
    }
}
