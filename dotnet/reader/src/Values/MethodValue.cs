using Mono.Cecil;

namespace TaskGraph.Reading
{
    /// <summary>A pointer to a method, of which a delegate is made.</summary>
    internal sealed class MethodValue : Value
    {
        public MethodValue(MethodReference method)
        {
            Method = method;
        }

        public MethodReference Method { get; }

        public override string Key => "fn" + Method.FullName;
    }
}
