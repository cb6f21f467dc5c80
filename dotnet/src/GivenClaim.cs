using System;
using System.Threading.Tasks;

namespace TaskGraph
{
    /// <summary>One claim whose given stands before it: <c>g.Claims.Quiet(stop).After(load, save)</c>.</summary>
    /// <remarks>Made by the givens of <see cref="Claims"/>. What is given is for this one claim, so the claim gives the graph back, and
    /// another one begins with its <see cref="TaskGraphBuilder.Claims"/> again.</remarks>
    public sealed class GivenClaim
    {
        private readonly TaskGraphBuilder graph;
        private readonly Given given;

        internal GivenClaim(TaskGraphBuilder graph)
        {
            this.graph = graph;
            given = graph.Given;
        }

        /// <summary>The claim has this name, by which answers name it: 1 to 100 bytes of text, another one for each claim.</summary>
        /// <exception cref="ArgumentException">It is empty, too long, has a control character, or is that of an earlier claim.</exception>
        public GivenClaim Named(string name) => With(() => graph.Claims.Named(name));

        /// <summary>The claim has this note, which is for readers alone.</summary>
        public GivenClaim WithNote(string note) => With(() => graph.Claims.WithNote(note));

        /// <summary>Nobody requests these tokens.</summary>
        public GivenClaim Quiet(params GraphToken[] tokens) => With(() => given.Quiet(tokens));

        /// <summary>The input has this value.</summary>
        public GivenClaim Given(GraphInput input, bool value) => With(() => given.Input(input, value));

        /// <summary>The task, if it has ended, did so in one of these ways: RanToCompletion, Canceled, Faulted.</summary>
        public GivenClaim Ended(GraphTask task, params TaskStatus[] ends) => With(() => given.Ended(task, ends));

        /// <summary>The jobs of these sites don't fail.</summary>
        public GivenClaim Succeeds(params string[] sites) => With(() => given.Succeeds(sites));

        /// <summary>No job fails.</summary>
        public GivenClaim NoFailure() => With(() => given.NoFailure());

        /// <summary>Nobody requests a token.</summary>
        public GivenClaim NoRequest() => With(() => given.NoRequest());

        /// <summary>If the task has ended, it has done so in one of these ways: RanToCompletion, Canceled, Faulted.</summary>
        public TaskGraphBuilder Final(GraphTask task, params TaskStatus[] ends) => Claim(it => it.Final(task, given, ends));

        /// <summary>The second task begins only after the first one is settled.</summary>
        public TaskGraphBuilder After(GraphTask first, GraphTask second) => Claim(it => it.After(first, second, given));

        /// <summary>The exception of the task's own body, if there is one, is read by somebody.</summary>
        public TaskGraphBuilder Observed(GraphTask task) => Claim(it => it.Observed(task, given));

        /// <summary>If the run is complete, the task has begun.</summary>
        public TaskGraphBuilder Runs(GraphTask task) => Claim(it => it.Runs(task, given));

        /// <summary>The task never begins.</summary>
        public TaskGraphBuilder Never(GraphTask task) => Claim(it => it.Never(task, given));

        /// <summary>Not both tasks begin.</summary>
        public TaskGraphBuilder Excludes(GraphTask one, GraphTask other) => Claim(it => it.Excludes(one, other, given));

        private GivenClaim With(Action say)
        {
            say();
            return this;
        }

        private TaskGraphBuilder Claim(Action<Claims> add)
        {
            add(graph.Claims);
            return graph;
        }
    }
}
