using System;
using System.Linq;
using Mono.Cecil;

namespace TaskGraph.Reading
{
    /// <summary>CancellationToken.</summary>
    internal sealed class TokenCalls : NamedCalls
    {
        public TokenCalls(Machine machine)
            : base(machine)
        {
            On(call => call.Give(new TokenValue(null)), "get_None");
            On(Check, "ThrowIfCancellationRequested");
            On(IsRequested, "get_IsCancellationRequested");
            On(call => call.Give(Machine.Fresh("can_be_canceled")), "get_CanBeCanceled");
            On(Register, "Register", "UnsafeRegister");
            On(call => call.Give(Machine.Fresh("same_token")), "op_Equality", "op_Inequality", "Equals");
        }

        protected override bool Covers(Call call) => call.Type == Types.Token;

        /// <summary>The token; one that nobody has written yet is None.</summary>
        private static TokenValue TokenOf(Call call) =>
            call.Target is NullValue ? new TokenValue(null) : call.Target as TokenValue;

        private PathNode Check(Call call)
        {
            TokenValue token = TokenOf(call);
            if (token == null)
            {
                throw call.Refuse(RefusalCode.Token, "a token that isn't known");
            }
            return token.Token == null ? call.Skip() : Machine.Jobs.Check(call.State, token.Token, it => it.Top.At++);
        }

        private PathNode IsRequested(Call call)
        {
            TokenValue token = TokenOf(call);
            bool isNone = token != null && token.Token == null;
            return call.Give(isNone
                ? new Number(0)
                : (Value)Machine.Fresh(Naming.Identifier((token?.Token.Name ?? "token") + "_requested")));
        }

        /// <summary>The outside may request a token at any moment, and a completion source may end at any moment: a callback
        /// that does no
        /// more than that, or jobs, adds nothing.</summary>
        private PathNode Register(Call call)
        {
            MethodDefinition callback = call.Arguments[0] is DelegateValue value ? Types.Find(value.Method) : null;
            if (callback == null || !callback.HasBody)
            {
                throw call.Refuse(RefusalCode.Register, "a callback of a token that isn't known");
            }
            if (callback.Body.Instructions.Select(it => it.Operand).OfType<MethodReference>().Any(it => MayTouch(callback, it)))
            {
                throw call.Refuse(RefusalCode.Register, "a callback of a token that touches tasks");
            }
            Machine.Notes.Add(Assumption.Callback, call.Where);
            return call.Give(Machine.Fresh("registration", call.Method.ReturnType));
        }

        private bool MayTouch(MethodDefinition callback, MethodReference called)
        {
            TypeReference type = called.DeclaringType;
            bool isTask = type.FullName.StartsWith(Types.Tasks, StringComparison.Ordinal)
                && !type.Name.StartsWith("TaskCompletionSource", StringComparison.Ordinal);
            MethodDefinition found = Types.Find(called);
            return isTask || (found != null && found.Module == callback.Module && Machine.Uses.Touches(found));
        }
    }
}
