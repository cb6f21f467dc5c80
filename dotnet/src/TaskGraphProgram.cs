using System;
using System.ComponentModel;
using System.Diagnostics;
using System.IO;
using System.Linq;
using System.Text;
using System.Threading;
using System.Threading.Tasks;
using TaskGraph.Internals;

namespace TaskGraph
{
    /// <summary>Calls the program taskgraph.</summary>
    /// <remarks>The environment variable TASKGRAPH names it, by one word or several: <c>taskgraph</c>, <c>wsl taskgraph</c>,
    /// <c>docker run -i --rm taskgraph</c>; or it is the path of a file, which may have spaces. Without it the program taskgraph is
    /// looked for on the path, and then beside the project, where the package puts the one for this system.</remarks>
    public static class TaskGraphProgram
    {
        private const int SaysNo = 1;
        private const int RefutingRuns = 10000;
        private const int FewSplits = 2;
        private const int MostSplits = 6;
        private const int MostRuns = 1000000;
        // in milliseconds
        private const int Pause = 20;

        private static readonly Encoding Utf8 = new UTF8Encoding(false);

        /// <summary>Calls the program with these words, and the document on standard input.</summary>
        /// <exception cref="InvalidOperationException">There is no such program, or it can't be started: with the system's
        /// reason.</exception>
        public static ProgramAnswer Call(string words, string document)
        {
            return Call(words, document, Timeout.InfiniteTimeSpan, CancellationToken.None);
        }

        /// <summary>Calls the program with these words, and the document on standard input, for so long at most. The program is
        /// stopped where the time is up, or the token is requested.</summary>
        /// <exception cref="InvalidOperationException">There is no such program, or it can't be started: with the system's
        /// reason.</exception>
        /// <exception cref="TimeoutException">The time was up before the answer was there.</exception>
        /// <exception cref="OperationCanceledException">The token was requested before the answer was there.</exception>
        public static ProgramAnswer Call(string words, string document, TimeSpan limit, CancellationToken token)
        {
            token.ThrowIfCancellationRequested();
            Stopwatch since = Stopwatch.StartNew();
            using (Process process = Begin(words))
            {
                Task<string> output = process.StandardOutput.ReadToEndAsync();
                Task<string> error = process.StandardError.ReadToEndAsync();
                // in a thread of its own: a program that reads nothing would hold one of the pool
                Task sent = Task.Factory.StartNew(
                    () => Send(process, document), CancellationToken.None, TaskCreationOptions.LongRunning, TaskScheduler.Default);
                var streams = new[] { output, error, sent };
                try
                {
                    if (!Task.WaitAll(streams, Left(limit, since), token) || !HasEnded(process, limit, since, token))
                    {
                        throw new TimeoutException(
                            "taskgraph " + words + " hadn't answered after " + limit.TotalSeconds + " s; give the call a longer limit");
                    }
                }
                catch
                {
                    Stop(process, streams);
                    throw;
                }
                return new ProgramAnswer(process.ExitCode, output.Result, error.Result);
            }
        }

        /// <summary>The document with a certificate. One with few splits is searched first: where there is none, a run in which a claim
        /// fails is mostly found at once, and spares the deeper search.</summary>
        internal static string Certify(TaskGraphBuilder graph, int depth, CallLimit limit)
        {
            DemandRange(nameof(depth), depth, 0, MostSplits);
            string document = graph.ToJson();
            ProgramAnswer found = Analyse(document, Math.Min(depth, FewSplits), limit);
            if (found.ExitCode == SaysNo)
            {
                ProgramAnswer run = limit.Call("refute --runs " + RefutingRuns, document);
                found = run.ExitCode == SaysNo || depth <= FewSplits ? found : Analyse(document, depth, limit);
                if (found.ExitCode == SaysNo)
                {
                    throw new TaskGraphException(EventLines.Beside(graph.Tasks, found.Output + found.Error + run.Error));
                }
            }
            Demand(found);
            Check(found.Output, limit);
            return found.Output;
        }

        /// <summary>The verdicts on the claims, as the program writes them, with its exit status: 0 where each claim holds and none is
        /// empty.</summary>
        internal static ProgramAnswer Verify(TaskGraphBuilder graph, int depth, int runs, CallLimit limit)
        {
            DemandRange(nameof(depth), depth, 0, MostSplits);
            DemandRange(nameof(runs), runs, 0, MostRuns);
            ProgramAnswer answer = limit.Call("verify --explain --depth " + depth + " --runs " + runs, graph.ToJson());
            if (answer.ExitCode != SaysNo)
            {
                Demand(answer);
            }
            return new ProgramAnswer(answer.ExitCode, EventLines.Beside(graph.Tasks, answer.Output), answer.Error);
        }

        internal static void Check(string document, CallLimit limit)
        {
            Demand(limit.Call("check --explain", document));
        }

        /// <exception cref="TaskGraphException">The answer isn't yes: with the program's words.</exception>
        internal static void Demand(ProgramAnswer answer)
        {
            if (answer.ExitCode != 0)
            {
                throw new TaskGraphException(answer.Output + answer.Error);
            }
        }

        private static ProgramAnswer Analyse(string document, int depth, CallLimit limit)
        {
            return limit.Call("analyse --whole --explain --depth " + depth, document);
        }

        private static void DemandRange(string name, int value, int least, int most)
        {
            if (value < least || value > most)
            {
                throw new ArgumentOutOfRangeException(name, name + " is " + least + " to " + most + ", and not " + value);
            }
        }

        private static void Send(Process process, string document)
        {
            byte[] bytes = Utf8.GetBytes(document);
            try
            {
                process.StandardInput.BaseStream.Write(bytes, 0, bytes.Length);
                process.StandardInput.Close();
            }
            catch (IOException)
            {
                // it ended without reading all: its exit status and standard error say why
            }
        }

        /// <summary>The milliseconds that are left of a limit: of a longer one than can be waited for, as many as can.</summary>
        private static int Left(TimeSpan limit, Stopwatch since)
        {
            return limit == Timeout.InfiniteTimeSpan
                ? Timeout.Infinite
                : (int)Math.Max(0, Math.Min(int.MaxValue, (limit - since.Elapsed).TotalMilliseconds));
        }

        /// <summary>Whether a program that has closed its streams ends before the time is up.</summary>
        private static bool HasEnded(Process process, TimeSpan limit, Stopwatch since, CancellationToken token)
        {
            while (!process.WaitForExit(Pause))
            {
                token.ThrowIfCancellationRequested();
                if (Left(limit, since) == 0)
                {
                    return false;
                }
            }
            return true;
        }

        /// <summary>Ends a program whose answer nobody waits for any more.</summary>
        private static void Stop(Process process, Task[] streams)
        {
            foreach (Task stream in streams)
            {
                // (it may fail once the process is disposed of)
                stream.ContinueWith(it => it.Exception, TaskContinuationOptions.OnlyOnFaulted);
            }
            try
            {
                process.Kill();
            }
            catch (InvalidOperationException)
            {
                // it has ended meanwhile
            }
            catch (Win32Exception)
            {
                // it ends just now
            }
        }

        private static Process Begin(string words)
        {
            ProgramPlace place = ProgramPlace.Find();
            string[] program = place.Words;
            var start = new ProcessStartInfo(program[0], string.Join(" ", program.Skip(1).Concat(new[] { words })))
            {
                RedirectStandardInput = true, RedirectStandardOutput = true, RedirectStandardError = true, UseShellExecute = false,
                // whatever the locale is
                StandardOutputEncoding = Utf8, StandardErrorEncoding = Utf8,
            };
            try
            {
                return Process.Start(start);
            }
            catch (Win32Exception thrown)
            {
                string why = "the program " + program[0] + ", " + place.Found + ", can't be started: " + thrown.Message;
                throw new InvalidOperationException(why + "; set TASKGRAPH to the program's path", thrown);
            }
        }
    }
}
