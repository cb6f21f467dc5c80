using System;

namespace TaskGraph.Reading
{
    /// <summary>A method that throws nothing: for the reader it is a job that can't fail. An attribute of this name in any
    /// namespace does.</summary>
    [AttributeUsage(AttributeTargets.Method | AttributeTargets.Constructor)]
    public sealed class NeverThrowsAttribute : Attribute
    {
    }
}
