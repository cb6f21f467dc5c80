using Mono.Cecil;

namespace TaskGraph.Reading
{
    /// <summary>A delegate of a method that is known.</summary>
    internal sealed class DelegateValue : Value
    {
        public DelegateValue(MethodReference method, Value target)
        {
            Method = method;
            Target = target;
        }

        public MethodReference Method { get; }

        public Value Target { get; }

        public override string Key => "d" + Method.FullName + "(" + Target.Key + ")";
    }
}
