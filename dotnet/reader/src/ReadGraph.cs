using System;
using System.Collections.Generic;
using System.Linq;
using System.Threading;
using System.Threading.Tasks;
using Mono.Cecil;

namespace TaskGraph.Reading
{
    /// <summary>A method that is read, with what the reader is told of it and what is claimed of it.</summary>
    /// <remarks>It is read when its document is first asked for.</remarks>
    public sealed class ReadGraph
    {
        private readonly MethodDefinition method;
        private readonly ReadSettings settings = new ReadSettings();
        private ReadResult result;

        internal ReadGraph(MethodDefinition method)
        {
            this.method = method;
            Claims = new ReadClaims(this);
        }

        /// <summary>What has to hold in every run.</summary>
        public ReadClaims Claims { get; }

        /// <summary>Something that a claim takes as given, to be said by its calls. Another one each time.</summary>
        public ReadGiven Given => new ReadGiven(this);

        /// <summary>What was read, and each assumption that was used, with its places.</summary>
        /// <exception cref="ReadException">The method has what the reader doesn't follow.</exception>
        public IReadOnlyList<string> Notes => Result.Lines;

        /// <summary>The assumptions that were used.</summary>
        /// <exception cref="ReadException">The method has what the reader doesn't follow.</exception>
        public IReadOnlyList<Assumption> Used => Result.Assumptions;

        /// <summary>The names of the document's tasks.</summary>
        /// <exception cref="ReadException">The method has what the reader doesn't follow.</exception>
        public IReadOnlyList<string> Tasks => Result.Document.Tasks.Select(it => it.Name).ToList();

        /// <summary>The task that ends as the method does; null where it returns without waiting for anything.</summary>
        /// <exception cref="ReadException">The method has what the reader doesn't follow.</exception>
        public string Ends => Result.Document.Ends;

        internal ReadResult Result => result ?? (result = new MethodReader(settings, new MarkerLowering()).Read(method));

        /// <summary>These jobs throw nothing. All others may, unless an attribute NeverThrows stands on their method.</summary>
        public ReadGraph Safe(params string[] jobs) => Told(() => settings.Safe.UnionWith(jobs));

        /// <summary>These methods are jobs, though they touch tasks: the reader doesn't look inside.</summary>
        public ReadGraph Job(params string[] methods) => Told(() => settings.Jobs.UnionWith(methods));

        /// <summary>An async job that gets no token may end Canceled all the same.</summary>
        public ReadGraph MayCancel() => Told(() => settings.MayCancel = true);

        /// <summary>A last task, Caller, reads the exception of the method, as one that awaits it does.</summary>
        public ReadGraph WithCaller() => Told(() => settings.HasCaller = true);

        /// <summary>The document, with the claims and with the lines of the code as notes.</summary>
        /// <exception cref="ReadException">The method has what the reader doesn't follow.</exception>
        public string ToJson() => Result.ToJson(true, Claims.ToJson());

        /// <summary>Demands that each claim holds in every run, and says something.</summary>
        /// <param name="limit">How long it may take; ten minutes, if left out.</param>
        /// <param name="token">Ends the search.</param>
        /// <exception cref="ReadException">The method has what the reader doesn't follow.</exception>
        /// <exception cref="ClaimException">A claim doesn't hold, or isn't decided: with the verdicts and the lines of the
        /// code.</exception>
        /// <exception cref="InvalidOperationException">There is no program taskgraph.</exception>
        /// <exception cref="TimeoutException">The time was up before the answer was there.</exception>
        /// <exception cref="OperationCanceledException">The token was requested before the answer was there.</exception>
        public void Verify(TimeSpan? limit = null, CancellationToken token = default(CancellationToken))
        {
            Claims.Demand();
            ProgramCall answer = ProgramCall.Of("verify", ToJson(), limit, token);
            if (answer.Status != 0)
            {
                throw new ClaimException(new SourceLines(Result.Document).Beside(answer.Output) + answer.Error);
            }
        }

        /// <summary>Demands that a recorded run may happen by the document: that there is a complete run in which its tasks
        /// end so.</summary>
        /// <param name="ends">How tasks of the document ended, by their names. Those that aren't named may end in each
        /// way.</param>
        /// <param name="limit">How long it may take; ten minutes, if left out.</param>
        /// <param name="token">Ends the search.</param>
        /// <exception cref="ArgumentException">The document has no task of a name.</exception>
        /// <exception cref="ClaimException">There is no such run, or the program found none.</exception>
        /// <exception cref="TimeoutException">The time was up before the answer was there.</exception>
        /// <exception cref="OperationCanceledException">The token was requested before the answer was there.</exception>
        public void Compare(
            IReadOnlyDictionary<string, TaskStatus> ends, TimeSpan? limit = null, CancellationToken token = default(CancellationToken)) =>
            new RunComparison(Result.Document, limit, token).Demand(ends);

        /// <summary>The same of a run that the recorder wrote, by its member "ended": the text of <c>run.ToJson()</c>.</summary>
        public void Compare(string run, TimeSpan? limit = null, CancellationToken token = default(CancellationToken)) =>
            Compare(RunComparison.EndsOf(run), limit, token);

        private ReadGraph Told(Action tell)
        {
            if (result != null)
            {
                throw new InvalidOperationException("the method is read already: say this before its document is asked for");
            }
            tell();
            return this;
        }
    }
}
