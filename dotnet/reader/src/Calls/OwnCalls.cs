using System;
using System.Collections.Generic;
using System.Linq;
using Mono.Cecil;
using Mono.Cecil.Cil;

namespace TaskGraph.Reading
{
    /// <summary>The team's own methods: followed where they touch tasks or tokens, jobs otherwise.</summary>
    internal sealed class OwnCalls : ICallRule
    {
        private const int LongestGetter = 6;

        private readonly Machine machine;

        public OwnCalls(Machine machine)
        {
            this.machine = machine;
        }

        public bool TryRun(Call call, out PathNode next)
        {
            next = null;
            MethodDefinition method = Types.Find(call.Method);
            if (method == null)
            {
                return false;
            }
            if (IsPlainGetter(call, method))
            {
                TypeReference type = Types.ReturnOf(call.Method);
                string name = call.Name.Substring("get_".Length);
                next = call.Give(machine.Outside.ValueOf("prop" + machine.NextId(), name, type, call.Where));
                return true;
            }
            if (!IsFollowed(call, method))
            {
                return false;
            }
            next = Follow(call, method);
            return true;
        }

        private static bool IsOwn(Call call, MethodDefinition method) => method.Module == call.State.Frames[0].Method.Module;

        /// <summary>Whether it is a property that only reads: of the team with a short body, or one of other code that gives
        /// no task.</summary>
        private static bool IsPlainGetter(Call call, MethodDefinition method)
        {
            if (!call.Name.StartsWith("get_", StringComparison.Ordinal) || call.Arguments.Count > 0)
            {
                return false;
            }
            TypeReference type = Types.ReturnOf(call.Method);
            bool isShort = method.HasBody && method.Body.Instructions.Count <= LongestGetter
                && method.Body.Instructions.All(it => it.OpCode.FlowControl != FlowControl.Call);
            bool givesTask = Types.IsTask(type) || type.FullName.StartsWith("System.Threading.Cancel", StringComparison.Ordinal);
            bool isOwn = IsOwn(call, method);
            return (isShort || (!isOwn && !givesTask)) && (!isOwn || !(call.Target is ObjectValue));
        }

        private static bool IsFixed(MethodDefinition method) =>
            !method.IsVirtual || method.IsFinal || method.DeclaringType.IsSealed;

        private bool IsFollowed(Call call, MethodDefinition method)
        {
            bool isHere = !machine.Settings.Jobs.Contains(method.Name) && method.HasBody && IsOwn(call, method);
            bool isThisOne = IsFixed(method) || !call.IsVirtual || (call.Target is ObjectValue && !method.IsAbstract);
            return isHere && isThisOne && machine.Uses.Touches(method);
        }

        private PathNode Follow(Call call, MethodDefinition method)
        {
            bool isRecursive = call.State.Frames.Any(it => it.Method == method);
            if (isRecursive || call.State.Frames.Count(it => it.Method.Name != "MoveNext") > machine.MostInlined)
            {
                machine.Notes.Add(Assumption.NotFollowed, call.Where, method.Name + (isRecursive ? " calls itself" : " is too deep"));
                return machine.Jobs.Run(call, Naming.OfCall(call.Method));
            }
            IEnumerable<Value> self = call.Self == null ? new Value[0] : new[] { call.Target is ObjectValue ? call.Target : call.Self };
            List<Value> arguments = self.Concat(call.Arguments).ToList();
            if (Types.IsAsync(method) && !Waits.IsWaitedForAtOnce(call.Frame))
            {
                return machine.Bodies.StartMethod(call.State, method, arguments);
            }
            if (!IsFixed(method) && call.IsVirtual)
            {
                machine.Notes.Add(Assumption.Overridden, call.Where, method.Name);
            }
            machine.Enter(call.State, method, arguments);
            return null;
        }
    }
}
