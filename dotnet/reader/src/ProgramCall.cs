using System;
using System.ComponentModel;
using System.Diagnostics;
using System.IO;
using System.Text;
using System.Threading;
using System.Threading.Tasks;

namespace TaskGraph.Reading
{
    /// <summary>A call of the program taskgraph, which the environment variable TASKGRAPH names: by a path, or by several
    /// words.</summary>
    internal sealed class ProgramCall
    {
        private const string Variable = "TASKGRAPH";
        private const string Default = "taskgraph";
        private const int Pause = 20;

        private static readonly TimeSpan Usual = TimeSpan.FromMinutes(10);
        private static readonly Encoding Utf8 = new UTF8Encoding(false);

        private ProgramCall(int status, string output, string error)
        {
            Status = status;
            Output = output;
            Error = error;
        }

        /// <summary>The exit status: 0 for yes, 1 for no.</summary>
        public int Status { get; }

        public string Output { get; }

        public string Error { get; }

        /// <summary>Calls the program, with the document on standard input.</summary>
        /// <param name="words">The words of the call.</param>
        /// <param name="document">The document.</param>
        /// <param name="limit">How long it may take; null for ten minutes.</param>
        /// <param name="token">Ends the call.</param>
        /// <exception cref="InvalidOperationException">There is no such program.</exception>
        /// <exception cref="TimeoutException">The time was up before the answer was there.</exception>
        /// <exception cref="OperationCanceledException">The token was requested before the answer was there.</exception>
        public static ProgramCall Of(string words, string document, TimeSpan? limit, CancellationToken token)
        {
            token.ThrowIfCancellationRequested();
            Stopwatch since = Stopwatch.StartNew();
            using (Process process = Begin(words))
            {
                Task<string> output = process.StandardOutput.ReadToEndAsync();
                Task<string> error = process.StandardError.ReadToEndAsync();
                Send(process, Utf8.GetBytes(document));
                while (!process.WaitForExit(Pause))
                {
                    if (token.IsCancellationRequested || (limit != Timeout.InfiniteTimeSpan && since.Elapsed > (limit ?? Usual)))
                    {
                        process.Kill();
                        token.ThrowIfCancellationRequested();
                        throw new TimeoutException("taskgraph " + words + " hadn't answered in time; give the call a longer limit");
                    }
                }
                return new ProgramCall(process.ExitCode, output.Result, error.Result);
            }
        }

        private static void Send(Process process, byte[] bytes)
        {
            try
            {
                process.StandardInput.BaseStream.Write(bytes, 0, bytes.Length);
                process.StandardInput.Close();
            }
            catch (IOException)
            {
                // it ended without reading all: its exit status and standard error say why
            }
        }

        private static Process Begin(string words)
        {
            string named = Environment.GetEnvironmentVariable(Variable);
            string program = string.IsNullOrWhiteSpace(named) ? Default : named;
            int space = File.Exists(program) ? -1 : program.IndexOf(' ');
            string first = space < 0 ? program : program.Substring(0, space), others = space < 0 ? "" : program.Substring(space + 1) + " ";
            var start = new ProcessStartInfo(first, others + words)
            {
                RedirectStandardInput = true, RedirectStandardOutput = true, RedirectStandardError = true, UseShellExecute = false,
                StandardOutputEncoding = Utf8, StandardErrorEncoding = Utf8,
            };
            try
            {
                return Process.Start(start);
            }
            catch (Win32Exception thrown)
            {
                string what = "the program " + first + " can't be started: " + thrown.Message + "; set the environment variable " + Variable
                    + " to its path";
                throw new InvalidOperationException(what, thrown);
            }
        }
    }
}
