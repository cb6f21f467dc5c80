using System;

namespace TaskGraph.Reading
{
    /// <summary>A claim doesn't hold, or isn't decided; or a recorded run isn't one of the document.</summary>
    public sealed class ClaimException : Exception
    {
        internal ClaimException(string message)
            : base(message)
        {
        }
    }
}
