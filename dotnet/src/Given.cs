using System;
using System.Collections.Generic;
using System.Linq;
using System.Threading.Tasks;
using TaskGraph.Internals;

namespace TaskGraph
{
    /// <summary>What a claim takes as given: it speaks only of the runs in which all of this is so.</summary>
    /// <remarks>Made by <see cref="TaskGraphBuilder.Given"/>, and handed to a claim:
    /// <c>g.Claims.Runs(rollback, given: g.Given.Ended(release, TaskStatus.Faulted))</c>.</remarks>
    public sealed class Given
    {
        private readonly TaskGraphBuilder graph;
        private readonly List<string> texts = new List<string>();

        internal Given(TaskGraphBuilder graph)
        {
            this.graph = graph;
        }

        /// <summary>What is given, as a document has it.</summary>
        internal IReadOnlyList<string> Texts => texts;

        /// <summary>Nobody requests these tokens.</summary>
        /// <exception cref="ArgumentNullException">A token is null.</exception>
        /// <exception cref="ArgumentException">A token is of another graph.</exception>
        public Given Quiet(params GraphToken[] tokens)
        {
            foreach (GraphToken token in tokens)
            {
                Add(Json.Object(Json.Member("quiet", Json.Text(Own(token).Name))));
            }
            return this;
        }

        /// <summary>The input has this value.</summary>
        /// <exception cref="ArgumentNullException">The input is null.</exception>
        /// <exception cref="ArgumentException">The input is of another graph.</exception>
        public Given Input(GraphInput input, bool value)
        {
            return Add(Json.Object(Json.Member("input", Json.Text(Own(input).Name)), Json.Member("is", Json.Bool(value))));
        }

        /// <summary>The task, if it has ended, did so in one of these ways: RanToCompletion, Canceled, Faulted.</summary>
        /// <exception cref="ArgumentException">The task is of another graph, or no end or another status is named.</exception>
        public Given Ended(GraphTask task, params TaskStatus[] ends)
        {
            return Add(Json.Object(Json.Member("ended", Json.Text(graph.DemandOwn(task).Name)), Claims.WaysOf(ends)));
        }

        /// <summary>The jobs of these sites don't fail.</summary>
        /// <exception cref="ArgumentException">A site is no name.</exception>
        public Given Succeeds(params string[] sites)
        {
            foreach (string site in sites)
            {
                Add(Json.Object(Json.Member("succeeds", Json.Text(Name.Checked(site)))));
            }
            return this;
        }

        /// <summary>No job fails.</summary>
        public Given NoFailure() => Add(Json.Text("no_failure"));

        /// <summary>Nobody requests a token.</summary>
        public Given NoRequest() => Add(Json.Text("no_request"));

        private GraphToken Own(GraphToken token)
        {
            return token == null ? throw new ArgumentNullException(nameof(token)) : graph.DemandOwn(token);
        }

        private GraphInput Own(GraphInput input)
        {
            return input == null ? throw new ArgumentNullException(nameof(input)) : graph.DemandOwn(input);
        }

        private Given Add(string text)
        {
            texts.Add(text);
            return this;
        }
    }
}
