using System;

namespace TaskGraph.Reading
{
    /// <summary>Exceptions, and throwing them again as they were.</summary>
    internal sealed class ExceptionCalls : ICallRule
    {
        private readonly Machine machine;

        public ExceptionCalls(Machine machine)
        {
            this.machine = machine;
        }

        public bool TryRun(Call call, out PathNode next)
        {
            next = null;
            if (call.Type == "System.Runtime.ExceptionServices.ExceptionDispatchInfo")
            {
                return TryDispatch(call, out next);
            }
            if (!(call.Target is ThrownValue))
            {
                return false;
            }
            if (call.Name == "Flatten" || call.Name == "GetBaseException" || call.Name == "get_InnerException" || call.Name == "get_Exception")
            {
                next = call.Give(call.Target);
                return true;
            }
            bool isProperty = call.Name.StartsWith("get_", StringComparison.Ordinal);
            next = isProperty
              ? call.Give(machine.Fresh(Naming.Identifier(call.Name.Substring("get_".Length)), call.Method.ReturnType))
              : null;
            return isProperty;
        }

        private bool TryDispatch(Call call, out PathNode next)
        {
            next = null;
            switch (call.Name)
            {
                case "Capture":
                    next = call.Give(call.Arguments[0]);
                    return true;
                case "get_SourceException":
                    next = call.Give(call.Target);
                    return true;
                case "Throw":
                    var thrown = (call.Target ?? call.Arguments[0]) as ThrownValue ?? ThrownValue.Unnamed();
                    next = machine.Exceptions.Throw(call.State, thrown);
                    return true;
                default:
                    return false;
            }
        }
    }
}
