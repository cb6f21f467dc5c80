using System;
using System.Collections.Generic;
using System.IO;
using System.Linq;
using System.Threading;
using System.Threading.Tasks;

namespace TaskGraph.Tests
{
    /// <summary>A method that is drawn by chance, of calls, tries, calls together and retries: as the compiler makes it of await, try,
    /// catch and finally, and as a declaration. For some failing jobs both call the same jobs in the same order, and end in the same
    /// way.</summary>
    internal sealed class DrawnMethod
    {
        private const int LongestRun = 5000;
        private const int DeepestTry = 3;
        private const int Attempts = 2;

        private enum Kind
        {
            Call,
            Together,
            Retry,
            Try,
        }

        private sealed class Statement
        {
            internal Kind Kind;
            internal string Name;
            internal List<Statement> Block;
            internal string Catch;
            internal bool Rethrows;
            internal string Finally;
        }

        private readonly Random chance;
        private readonly List<string> jobs = new List<string>();
        private readonly List<Statement> statements;
        private readonly HashSet<string> failing;
        private readonly List<string> calls = new List<string>();

        // what each call of the method as it is written is made through; null where it is made by itself
        private GraphRun watching;
        private TaskGraphBuilder watched;

        // the call that the method leaves out, and whether it comes to it
        private string leftOut;
        private bool hasLeftOut;

        private DrawnMethod(int seed)
        {
            chance = new Random(seed);
            statements = Draw(0);
            double rate = chance.NextDouble() / 2;
            failing = new HashSet<string>(jobs.Where(_ => chance.NextDouble() < rate));
        }

        internal static void Write(TextWriter to, int count, int seed)
        {
            for (int number = seed; number < seed + count; number++)
            {
                string written = new DrawnMethod(number).OfWritten();
                GraphRun run;
                string declared = new DrawnMethod(number).OfDeclared(out run);
                to.WriteLine("drawn " + number + "\t" + written + "\t" + declared);
                RunLine.Write(to, "drawn " + number, run, declared != "no end");
            }
        }

        /// <summary>Runs methods as they are written, with their calls watched against the declaration; and such as leave a call out.</summary>
        internal static void WriteWatched(TextWriter to, int count, int seed)
        {
            for (int number = seed; number < seed + count; number++)
            {
                GraphRun run;
                bool hasEnded = new DrawnMethod(number).Watched(out run);
                RunLine.Write(to, "watched " + number, run, hasEnded);
                var lacking = new DrawnMethod(number);
                lacking.leftOut = lacking.jobs[number % lacking.jobs.Count];
                hasEnded = lacking.Watched(out run);
                if (lacking.hasLeftOut)
                {
                    RunLine.Write(to, "lacking " + number, run, hasEnded);
                }
            }
        }

        private bool Watched(out GraphRun run)
        {
            watched = new TaskGraphBuilder();
            MethodBlock method = watched.Method("Drawn");
            Declare(method, statements);
            method.AsTask();
            run = watching = watched.Watch();
            return Task.WaitAny(new[] { Written(statements) }, LongestRun) == 0 && run.Wait(LongestRun);
        }

        private List<Statement> Draw(int depth)
        {
            return Enumerable.Range(0, chance.Next(1, 4)).Select(_ => DrawOne(depth)).ToList();
        }

        private Statement DrawOne(int depth)
        {
            int drawn = chance.Next(8);
            if (drawn == 0)
            {
                return new Statement { Kind = Kind.Together, Name = Job("A", "a", "b") };
            }
            if (drawn == 1)
            {
                return new Statement { Kind = Kind.Retry, Name = Job("R", "1", "2") };
            }
            if (drawn < 5 && depth < DeepestTry)
            {
                return DrawTry(depth);
            }
            return new Statement { Kind = Kind.Call, Name = Job("C", "") };
        }

        private Statement DrawTry(int depth)
        {
            var made = new Statement { Kind = Kind.Try, Block = Draw(depth + 1) };
            int shape = chance.Next(3);
            made.Catch = shape == 0 ? null : Job("H", "");
            made.Rethrows = chance.Next(3) == 0;
            made.Finally = shape == 1 ? null : Job("F", "");
            return made;
        }

        /// <summary>A new name, whose jobs have these endings.</summary>
        private string Job(string letter, params string[] endings)
        {
            string name = letter + jobs.Count;
            jobs.AddRange(endings.Select(it => name + it));
            return name;
        }

        private string OfWritten()
        {
            Task task = Written(statements);
            return Task.WaitAny(new[] { task }, LongestRun) < 0 ? "no end" : Told(task);
        }

        private string OfDeclared(out GraphRun run)
        {
            var g = new TaskGraphBuilder();
            MethodBlock method = g.Method("Drawn");
            Declare(method, statements);
            GraphTask whole = method.AsTask();
            run = g.Start();
            return run.Wait(LongestRun) ? Told(run[whole]) : "no end";
        }

        private async Task Written(IEnumerable<Statement> block)
        {
            foreach (Statement it in block)
            {
                switch (it.Kind)
                {
                    case Kind.Call: await Make(it.Name); break;
                    case Kind.Together: await Task.WhenAll(Make(it.Name + "a"), Make(it.Name + "b")); break;
                    case Kind.Retry: await WrittenRetry(it); break;
                    default: await WrittenTry(it); break;
                }
            }
        }

        private async Task WrittenRetry(Statement retry)
        {
            for (int attempt = 1; ; attempt++)
            {
                try
                {
                    await Make(retry.Name + attempt);
                    break;
                }
                catch (Exception) when (attempt < Attempts)
                {
                }
            }
        }

        private async Task WrittenTry(Statement of)
        {
            try
            {
                await Written(of.Block);
            }
            catch (Exception) when (of.Catch != null)
            {
                await Make(of.Catch);
                if (of.Rethrows)
                {
                    throw;
                }
            }
            finally
            {
                if (of.Finally != null)
                {
                    await Make(of.Finally);
                }
            }
        }

        private void Declare(MethodBlock to, IEnumerable<Statement> block)
        {
            foreach (Statement it in block)
            {
                switch (it.Kind)
                {
                    case Kind.Call: to.Await(it.Name, () => Do(it.Name), mayFail: true); break;
                    case Kind.Together: to.AwaitAll(it.Name, calling => DeclareTogether(calling, it.Name)); break;
                    case Kind.Retry: to.Retry(it.Name, Attempts, attempt => Do(it.Name + attempt)); break;
                    default: DeclareTry(to, it); break;
                }
            }
        }

        private void DeclareTogether(MethodCalls to, string name)
        {
            to.Call(name + "a", () => Do(name + "a"), mayFail: true).Call(name + "b", () => Do(name + "b"), mayFail: true);
        }

        private void DeclareTry(MethodBlock to, Statement of)
        {
            to.Try(it => Declare(it, of.Block));
            if (of.Catch != null && of.Rethrows)
            {
                to.CatchAndRethrow(of.Catch, _ => Do(of.Catch), mayFail: true);
            }
            else if (of.Catch != null)
            {
                to.Catch(of.Catch, _ => Do(of.Catch), mayFail: true);
            }
            if (of.Finally != null)
            {
                to.Finally(of.Finally, () => Do(of.Finally), mayFail: true);
            }
        }

        private Task Make(string job)
        {
            if (job == leftOut)
            {
                hasLeftOut = true;
                return Task.FromResult(true);
            }
            return watching == null ? Do(job) : watching.Call(watched[job], () => Do(job));
        }

        private async Task Do(string job)
        {
            lock (calls)
            {
                calls.Add(job);
            }
            await Task.Yield();
            if (failing.Contains(job))
            {
                throw new InvalidOperationException(job);
            }
        }

        /// <summary>The calls, of which such as are awaited together stand in the order of their names, and how it ended.</summary>
        private string Told(Task task)
        {
            for (int place = 1; place < calls.Count; place++)
            {
                if (calls[place - 1] == calls[place].TrimEnd('a') + "b" && calls[place].EndsWith("a", StringComparison.Ordinal))
                {
                    calls.Reverse(place - 1, 2);
                }
            }
            return string.Join(" ", calls) + ": " + task.Status;
        }
    }
}
