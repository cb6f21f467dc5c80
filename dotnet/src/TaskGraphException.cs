using System;

namespace TaskGraph
{
    /// <summary>The program said no: no certificate, or a run that isn't one of the graph. The message has its words.</summary>
    public sealed class TaskGraphException : Exception
    {
        /// <summary>Makes the exception with the program's words.</summary>
        public TaskGraphException(string message)
            : base(message)
        {
        }
    }
}
