using System;
using System.Diagnostics;
using System.IO;
using System.Threading;

namespace TaskGraph.Tests
{
    /// <summary>A call of the program, wherever it lies.</summary>
    internal static class Calls
    {
        private const string Document = "{\"version\":3,\"tasks\":[]}";

        /// <summary>Writes what becomes of a call with these words, which has a limit and whose token is requested after a while, in
        /// milliseconds; -1 stands for neither. A document that is larger than what a pipe holds is sent.</summary>
        internal static void Write(TextWriter to, string words, long limit, int requested)
        {
            Stopwatch since = Stopwatch.StartNew();
            using (var source = new CancellationTokenSource(requested))
            {
                to.Write(Answer(words, TimeSpan.FromMilliseconds(limit), source.Token).Replace("\n", " | "));
            }
            to.WriteLine("\t" + since.ElapsedMilliseconds);
        }

        private static string Answer(string words, TimeSpan limit, CancellationToken token)
        {
            try
            {
                ProgramAnswer answer = TaskGraphProgram.Call(words, Document + new string(' ', 1 << 20), limit, token);
                return answer.ExitCode + " " + answer.Output + answer.Error;
            }
            catch (Exception thrown) when (thrown is InvalidOperationException || thrown is TimeoutException || thrown is OperationCanceledException)
            {
                return thrown.GetType().Name + ": " + thrown.Message;
            }
        }
    }
}
