// Later compilers read this attribute by its name. Where the base class library has it, theirs is taken.
#if !NETCOREAPP3_0 && !NETCOREAPP3_1 && !NETCOREAPP3_0_OR_GREATER && !NETSTANDARD2_1 && !NETSTANDARD2_1_OR_GREATER
namespace System.Diagnostics.CodeAnalysis
{
    /// <summary>What is given may be null.</summary>
    [AttributeUsage(AttributeTargets.Property | AttributeTargets.Field | AttributeTargets.Parameter | AttributeTargets.ReturnValue)]
    internal sealed class MaybeNullAttribute : Attribute
    {
    }
}
#endif
