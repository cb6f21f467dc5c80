using System;

namespace TaskGraph.Internals
{
    /// <summary>Tells of an exception that isn't declared.</summary>
    internal static class Told
    {
        /// <summary>What threw, the type and the message in the first line, what to do in the second one, and the stack behind it.</summary>
        internal static string Of(string what, Exception thrown, string advice)
        {
            string message = thrown.Message.Replace("\r", "").Replace("\n", " ");
            string first = what + " threw " + thrown.GetType().Name + ": " + message;
            return first + "\n" + advice + (thrown.StackTrace == null ? "" : "\n" + thrown.StackTrace);
        }
    }
}
