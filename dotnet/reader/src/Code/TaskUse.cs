using System;
using System.Collections.Generic;
using System.Linq;
using Mono.Cecil;

namespace TaskGraph.Reading
{
    /// <summary>Which methods touch tasks or tokens: the others are jobs as a whole.</summary>
    internal sealed class TaskUse
    {
        private static readonly HashSet<string> Harmless = new HashSet<string> { "FromResult", "get_CompletedTask", "Delay", "get_None" };

        private readonly Dictionary<string, bool> known = new Dictionary<string, bool>();

        /// <summary>Whether a method, or one of the same assembly that it calls, touches tasks or tokens.</summary>
        public bool Touches(MethodDefinition method)
        {
            if (method == null || !method.HasBody)
            {
                return false;
            }
            if (!known.TryGetValue(method.FullName, out bool touches))
            {
                // (one that calls itself touches none by that)
                known[method.FullName] = false;
                touches = Types.IsAsync(method) || Calls(method).Any(it => IsOfTasks(it) || IsFollowed(method, Types.Find(it)));
                known[method.FullName] = touches;
            }
            return touches;
        }

        /// <summary>Whether the method of a delegate touches tasks or tokens.</summary>
        public bool Touches(DelegateValue value) => Touches(Types.Find(value.Method));

        /// <summary>Whether all that a method does with tasks and tokens is to request tokens: the outside may do that at any
        /// moment.</summary>
        public bool OnlyRequests(DelegateValue value)
        {
            MethodDefinition method = Types.Find(value.Method);
            return method != null && method.HasBody && !Types.IsAsync(method) && Calls(method).All(it => IsRequest(it) || IsHarmless(method, it));
        }

        private static bool IsRequest(MethodReference call) =>
            call.DeclaringType.FullName == Types.Source && call.Name == "Cancel";

        private bool IsHarmless(MethodDefinition method, MethodReference call) =>
            !IsOfTasks(call) && !IsFollowed(method, Types.Find(call));

        private static IEnumerable<MethodReference> Calls(MethodDefinition method) =>
            method.Body.Instructions.Select(it => it.Operand).OfType<MethodReference>();

        private static bool IsOfTasks(MethodReference call)
        {
            string type = call.DeclaringType.GetElementType().FullName;
            bool isTask = type.StartsWith(Types.Tasks, StringComparison.Ordinal) && !type.Contains("ValueTask");
            bool isToken = type.StartsWith("System.Threading.Cancellation", StringComparison.Ordinal);
            return (isTask || isToken) && !Harmless.Contains(call.Name);
        }

        private bool IsFollowed(MethodDefinition method, MethodDefinition called) =>
            called != null && called.Module == method.Module && called != method && (!called.IsVirtual || called.IsFinal) && Touches(called);
    }
}
