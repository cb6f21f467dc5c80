using System;
using System.Collections.Generic;
using System.Linq;
using Mono.Cecil;

namespace TaskGraph.Reading
{
    /// <summary>Calls of the base library that throw nothing in correct code, and touch no task.</summary>
    internal sealed class LibraryCalls : ICallRule
    {
        private static readonly HashSet<string> PureTypes = new HashSet<string>
        {
            "System.String", "System.Math", "System.DateTime", "System.TimeSpan", "System.Object", "System.Console", "System.Type",
            "System.Diagnostics.Stopwatch", "System.DateTimeOffset", "System.Guid", "System.Nullable`1", "System.Threading.Monitor",
            "System.GC", "System.Threading.Interlocked", "System.Threading.Volatile",
        };

        private static readonly HashSet<string> PureConstructors = new HashSet<string>
        {
            "System.Object", "System.Text.StringBuilder", "System.Diagnostics.Stopwatch", "System.Threading.SemaphoreSlim",
        };

        private readonly Machine machine;

        public LibraryCalls(Machine machine)
        {
            this.machine = machine;
        }

        /// <summary>Whether a call or a constructor throws nothing.</summary>
        public static bool IsPure(MethodReference method)
        {
            string type = method.DeclaringType.GetElementType().FullName;
            if (method.Name == ".ctor")
            {
                return type == "System.Object" || (IsOfLibrary(method.DeclaringType) && IsPureConstructor(type));
            }
            bool isGetter = Begins(method.Name, "get_");
            if (type == "System.Threading.Tasks.TaskScheduler" || type == "System.Threading.SynchronizationContext")
            {
                return isGetter || Begins(method.Name, "From");
            }
            if (type == "System.Exception" || type == "System.AggregateException")
            {
                return isGetter || method.Name == "Flatten" || method.Name == "GetBaseException";
            }
            return PureTypes.Contains(type) || Begins(type, "System.Diagnostics.Debug");
        }

        public bool TryRun(Call call, out PathNode next)
        {
            next = null;
            bool isOfSource = call.Target is SourceValue || call.Target is NullValue;
            if ((call.Type == "System.IDisposable" && call.Name == "Dispose" && isOfSource) || IsEnd(call))
            {
                next = call.Skip();
            }
            else if (call.Name == "get_IsCompletedSuccessfully" || (call.Type == "System.Threading.Thread" && call.Name == "Sleep"))
            {
                next = call.GiveIfAny(machine.Fresh(call.Name));
            }
            else if (IsPure(call.Method))
            {
                next = RunPure(call);
            }
            else if (call.Name == "GetEnumerator" && Begins(call.Type, "System.Collections."))
            {
                // the items of a list that isn't known come from its MoveNext
                next = call.Give(machine.Outside.NewEnumerator(call.Method.ReturnType));
            }
            else
            {
                return false;
            }
            return true;
        }

        private static bool IsEnd(Call call) =>
            call.Type == "System.Runtime.CompilerServices.RuntimeHelpers"
            || (call.Name == "Dispose" && call.Target is Unknown list && Outside.IsEnumerator(list));

        private static bool Begins(string text, string beginning) => text.StartsWith(beginning, StringComparison.Ordinal);

        private static bool IsOfLibrary(TypeReference type) =>
            Begins(type.Scope.Name, "mscorlib") || Begins(type.Scope.Name, "System");

        private static bool IsPureConstructor(string type) =>
            PureConstructors.Contains(type) || Begins(type, "System.Collections.") || Begins(type, "System.Progress");

        private PathNode RunPure(Call call)
        {
            foreach (DelegateValue lambda in call.Arguments.OfType<DelegateValue>().Where(machine.Uses.Touches))
            {
                machine.Jobs.DemandRequests(call, lambda, call.Method.DeclaringType.Name + "." + call.Name);
            }
            machine.Notes.Add(Assumption.BaseLibrary, call.Method.DeclaringType.Name + "." + call.Name);
            return call.GiveIfAny(machine.Fresh(Naming.Identifier(call.Name.Replace("get_", "")), call.Method.ReturnType));
        }
    }
}
