using System;
using System.Collections.Generic;
using System.Linq;
using Mono.Cecil;

namespace TaskGraph.Reading
{
    /// <summary>A call on a path: its arguments are off the stack.</summary>
    internal sealed class Call
    {
        public Call(PathState state, MethodReference method, List<Value> arguments, Value self, Value target, bool isVirtual)
        {
            State = state;
            Method = method;
            Arguments = arguments;
            Self = self;
            Target = target;
            IsVirtual = isVirtual;
            Type = method.DeclaringType.GetElementType().FullName;
        }

        public PathState State { get; }

        public Frame Frame => State.Top;

        public MethodReference Method { get; }

        public IReadOnlyList<Value> Arguments { get; }

        /// <summary>The object, or its address; null for a static method.</summary>
        public Value Self { get; }

        /// <summary>The object itself; null for a static method.</summary>
        public Value Target { get; }

        public bool IsVirtual { get; }

        /// <summary>The full name of the type that declares it, without type arguments.</summary>
        public string Type { get; }

        public string Name => Method.Name;

        public string Where => State.Where;

        /// <summary>Whether something is put on the stack.</summary>
        public bool HasResult => !Types.IsVoid(Method.ReturnType);

        /// <summary>Goes on behind the call, with its result.</summary>
        public PathNode Give(Value result)
        {
            Frame.Give(result);
            return null;
        }

        /// <summary>Goes on behind the call, which gives nothing.</summary>
        public PathNode Skip()
        {
            Frame.At++;
            return null;
        }

        /// <summary>Goes on behind the call, with its result if it has one.</summary>
        public PathNode GiveIfAny(Value result) => HasResult ? Give(result) : Skip();

        /// <summary>The same call, of the method that a delegate stands for.</summary>
        public Call With(MethodReference method) => new Call(State, method, Arguments.ToList(), Self, Target, false);

        /// <summary>The same call on another path.</summary>
        public Call On(PathState state) => new Call(state, Method, Arguments.ToList(), Self, Target, IsVirtual);

        public ReadException Refuse(RefusalCode code, string what) => State.Refuse(code, what);
    }
}
