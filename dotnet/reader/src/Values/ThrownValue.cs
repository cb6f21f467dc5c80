using System;
using Mono.Cecil;

namespace TaskGraph.Reading
{
    /// <summary>An exception.</summary>
    internal sealed class ThrownValue : Value
    {
        /// <summary>The origin of an exception that the code makes itself.</summary>
        public const int Here = -1;

        public ThrownValue(string label, bool isCancellation, TypeReference type, int origin)
        {
            Label = label;
            IsCancellation = isCancellation;
            Type = type;
            Origin = origin;
        }

        public string Label { get; }

        /// <summary>Whether it is an OperationCanceledException.</summary>
        public bool IsCancellation { get; }

        /// <summary>Its type; null where it isn't known.</summary>
        public TypeReference Type { get; }

        /// <summary>The node of the path that threw it, or <see cref="Here"/>.</summary>
        public int Origin { get; }

        public override string Key => "e" + Label + IsCancellation + Origin;

        public static ThrownValue Unnamed(TypeReference type = null) => new ThrownValue("Thrown", false, type, Here);
    }
}
