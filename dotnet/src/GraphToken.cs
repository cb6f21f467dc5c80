using System;
using System.Diagnostics.CodeAnalysis;
using System.Linq;
using System.Threading;

namespace TaskGraph
{
    /// <summary>A cancellation token of the graph.</summary>
    /// <remarks>Made by <see cref="TaskGraphBuilder.Token(string)"/>, its overloads and <see cref="TaskGraphBuilder.Linked"/>.</remarks>
    public sealed class GraphToken
    {
        internal GraphToken[] Sources { get; }

        internal GraphToken(int id, string name, CancellationTokenSource source, CancellationToken token, GraphToken[] sources)
        {
            Id = id;
            Name = name;
            Source = source;
            CancellationToken = token;
            Sources = sources;
        }

        internal int Id { get; }

        /// <summary>The token's name in the document.</summary>
        public string Name { get; }

        /// <summary>The source of the token; null where the token came from elsewhere, as RequestAborted does.</summary>
        [MaybeNull]
        public CancellationTokenSource Source { get; }

        /// <summary>The real token.</summary>
        public CancellationToken CancellationToken { get; }

        /// <summary>Gives the real token, so that a graph's token can be handed to any call that takes one.</summary>
        public static implicit operator CancellationToken(GraphToken token)
        {
            return token == null ? CancellationToken.None : token.CancellationToken;
        }

        /// <exception cref="ArgumentException">The token's source isn't known here.</exception>
        internal void DemandSource()
        {
            if (Source == null)
            {
                throw new ArgumentException("the source of " + Name + " isn't known here; declare it by Token(name, source)");
            }
        }

        /// <summary>Whether this is what a job throws that stops by this token, which is requested.</summary>
        internal bool IsStop(Exception thrown)
        {
            var canceled = thrown as OperationCanceledException;
            return canceled != null && canceled.CancellationToken == CancellationToken && CancellationToken.IsCancellationRequested;
        }

        /// <summary>Whether a request of this token requests the other one too: it is the other one, or a source of it.</summary>
        internal bool Requests(GraphToken other) => this == other || other.Sources.Any(Requests);
    }
}
