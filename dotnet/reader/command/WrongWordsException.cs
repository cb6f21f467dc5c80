using System;

namespace TaskGraph.Reading
{
    /// <summary>The words of a call mean nothing.</summary>
    internal sealed class WrongWordsException : Exception
    {
        public WrongWordsException(string message)
            : base(message)
        {
        }
    }
}
