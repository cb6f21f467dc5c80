using System;

namespace TaskGraph.Reading
{
    /// <summary>A method can't be read: it has what the reader doesn't follow. It never guesses.</summary>
    public sealed class ReadException : Exception
    {
        internal ReadException(RefusalCode code, string place, string what)
            : base($"{place}: {what} ({Refusals.WordOf(code)}); {Refusals.AdviceOn(code)}")
        {
            Code = code;
            Place = place;
        }

        /// <summary>Why.</summary>
        public RefusalCode Code { get; }

        /// <summary>The line, or the offset of the instruction, and the method.</summary>
        public string Place { get; }
    }
}
