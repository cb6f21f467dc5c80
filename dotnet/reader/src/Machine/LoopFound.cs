using System;
using Mono.Cecil;

namespace TaskGraph.Reading
{
    /// <summary>A path has come back to where it was: the loop is one job in the next attempt.</summary>
    internal sealed class LoopFound : Exception
    {
        public LoopFound(MethodDefinition method, int at)
        {
            Method = method;
            At = at;
        }

        public MethodDefinition Method { get; }

        public int At { get; }

        /// <summary>The name of a place in the code.</summary>
        public static string PlaceOf(MethodDefinition method, int at) => method.FullName + "@" + at;
    }
}
