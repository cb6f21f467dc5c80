using System.Collections.Generic;
using System.Linq;
using Mono.Cecil;

namespace TaskGraph.Reading
{
    /// <summary>What may end a wait that blocks before its tasks have ended: a time, a token, or both.</summary>
    internal sealed class WaitLimits
    {
        private const int Infinite = -1;

        private WaitLimits(bool hasTime, PathToken token)
        {
            HasTime = hasTime;
            Token = token;
        }

        public bool HasTime { get; }

        /// <summary>The token; null for none, or for one that nobody can request.</summary>
        public PathToken Token { get; }

        /// <summary>The limits among the arguments of a call.</summary>
        /// <exception cref="ReadException">A token isn't known.</exception>
        public static WaitLimits Of(Call call)
        {
            bool hasTime = false;
            PathToken token = null;
            for (int at = 0; at < call.Arguments.Count; at++)
            {
                TypeReference type = call.Method.Parameters[at].ParameterType;
                Value given = call.Arguments[at];
                if (Types.IsToken(type))
                {
                    token = TokenOf(call, given);
                }
                else if (type.FullName == "System.Int32" || type.FullName == "System.TimeSpan")
                {
                    hasTime = !(given is Number number && number.Amount == Infinite);
                }
            }
            return new WaitLimits(hasTime, token);
        }

        private static PathToken TokenOf(Call call, Value given)
        {
            if (!(given is TokenValue) && !(given is NullValue))
            {
                throw call.Refuse(RefusalCode.Token, call.Name + " with a token that isn't known");
            }
            return (given as TokenValue)?.Token;
        }
    }
}
