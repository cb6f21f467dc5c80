using System;
using Mono.Cecil;

namespace TaskGraph.Reading
{
    /// <summary>Some value. Where two have the same id they are the same value.</summary>
    internal sealed class Unknown : Value
    {
        public Unknown(string id, string name, TypeReference type)
        {
            Id = id;
            Name = name;
            Type = type;
        }

        public string Id { get; }

        /// <summary>What a condition on it is called in the document.</summary>
        public string Name { get; }

        /// <summary>Its type; null where it isn't known.</summary>
        public TypeReference Type { get; }

        public override string Key => "?" + Id;

        public override bool? Truth => null;
    }
}
