using System;
using System.Collections.Generic;
using System.Threading.Tasks;

namespace TaskGraph.Internals
{
    /// <summary>A try of a method with its catch and its finally.</summary>
    internal sealed class MethodTry
    {
        private readonly TaskGraphBuilder graph;
        private readonly GraphTask tried;

        // what ran to completion where the try is reached; null where it is a method's first statement
        private readonly GraphTask entered;
        private readonly bool mayBeCanceled;
        private GraphTask caught;
        private GraphTask after;
        private bool rethrows;

        internal MethodTry(TaskGraphBuilder graph, GraphTask tried, GraphTask entered, bool hasToken)
        {
            this.graph = graph;
            this.tried = tried;
            this.entered = entered;
            mayBeCanceled = hasToken || entered != null;
        }

        /// <summary>The tasks that say whether what follows a handler is reached: both run to completion where it is. The first one is
        /// Canceled where what was tried is, the second one Faulted where the handler is.</summary>
        internal static GraphTask[] Handled(TaskGraphBuilder graph, GraphTask tried, GraphTask handler, bool mayBeCanceled)
        {
            Steps again = new Steps().Observe().ThrowOf("Rethrown", it => it.Exception.InnerException);
            var ends = new List<GraphTask>();
            if (mayBeCanceled)
            {
                ends.Add(tried.ContinueWith(graph.FreeName("NotCanceled"), new Steps(), TaskContinuationOptions.NotOnCanceled).AsPart(null));
            }
            ends.Add(handler.ContinueWith(graph.FreeName("Rethrow"), new Steps().When(TaskStatus.Faulted, again)).AsPart(null));
            return ends.ToArray();
        }

        /// <summary>One task that ends as these do together.</summary>
        internal static GraphTask Join(TaskGraphBuilder graph, GraphTask[] ends)
        {
            return ends.Length == 1 ? ends[0] : graph.WhenAll(graph.FreeName("Finished"), ends).AsPart(null);
        }

        internal void Catch(string name, Steps handler, bool isThrownAgain, string origin)
        {
            if (caught != null || after != null)
            {
                throw new InvalidOperationException("a Try has one Catch, before its Finally; let the handler tell the exceptions apart");
            }
            rethrows = isThrownAgain;
            Steps body = new Steps().Observe().Append(handler);
            caught = tried.ContinueWith(name, body, TaskContinuationOptions.OnlyOnFaulted).AsPart(origin);
        }

        internal void Finally(string name, Steps body, string origin)
        {
            if (after != null)
            {
                throw new InvalidOperationException("a Try has one Finally; put both actions into its steps");
            }
            GraphTask both = caught == null ? tried : graph.WhenAll(graph.FreeName("Caught"), tried, caught).AsPart(null);
            after = (entered == null ? both.ContinueWith(name, body) : AfterEntered(both, name, body)).AsPart(origin);
        }

        /// <summary>A finally that runs only where the try was reached.</summary>
        private GraphTask AfterEntered(GraphTask both, string name, Steps body)
        {
            GraphTask left = both.ContinueWith(graph.FreeName("Left"), new Steps()).AsPart(null);
            GraphTask reached = graph.WhenAll(graph.FreeName("Entered"), entered, left).AsPart(null);
            return reached.ContinueWith(name, body, TaskContinuationOptions.OnlyOnRanToCompletion);
        }

        /// <exception cref="InvalidOperationException">It has neither a catch nor a finally.</exception>
        internal void Check()
        {
            if (caught == null && after == null)
            {
                throw new InvalidOperationException("a Try has a Catch or a Finally: add one, or leave the Try out");
            }
        }

        /// <summary>The tasks whose WhenAll ends as the whole statement does.</summary>
        internal GraphTask[] Close()
        {
            Check();
            var ends = new List<GraphTask>();
            if (caught == null || rethrows)
            {
                ends.Add(tried);
            }
            if (caught != null && (!rethrows || after == null))
            {
                ends.AddRange(Handled(graph, tried, caught, mayBeCanceled && !rethrows));
            }
            if (after != null)
            {
                ends.Add(after);
            }
            return ends.ToArray();
        }
    }
}
