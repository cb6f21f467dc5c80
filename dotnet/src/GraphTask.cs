using System;
using System.Collections.Generic;
using System.Diagnostics.CodeAnalysis;
using System.Runtime.CompilerServices;
using System.Threading.Tasks;
using TaskGraph.Internals;

namespace TaskGraph
{
    /// <summary>A task of the graph.</summary>
    /// <remarks>Made by the calls of <see cref="TaskGraphBuilder"/>, and by <see cref="ContinueWith(string, Action{Task},
    /// TaskContinuationOptions, GraphToken, bool, string, int)"/> of another task.</remarks>
    public sealed class GraphTask
    {
        internal TaskGraphBuilder Graph { get; set; }
        internal int Id { get; set; }
        internal TaskKind Kind { get; set; }

        /// <summary>What it does; null for WhenAll and WhenAny.</summary>
        internal Steps Body { get; set; }

        /// <summary>Whether the body is an async method; known once the graph is complete.</summary>
        internal bool IsAsync { get; set; }

        internal GraphToken Token { get; set; }
        internal TaskContinuationOptions Options { get; set; }

        /// <summary>The antecedent of a continuation; null for others.</summary>
        internal GraphTask Antecedent { get; set; }

        /// <summary>What a WhenAll or WhenAny waits for; null for others.</summary>
        internal GraphTask[] Of { get; set; }

        /// <summary>The task whose body starts this child; null for others.</summary>
        internal GraphTask Parent { get; set; }

        /// <summary>The attached children, in the textual order of the steps that start them.</summary>
        internal List<GraphTask> Attached { get; } = new List<GraphTask>();

        /// <summary>The continuations of this task, and the WhenAll and WhenAny tasks that wait for it.</summary>
        internal List<GraphTask> Followers { get; } = new List<GraphTask>();

        internal GraphTask()
        {
        }

        /// <summary>The line of C# that declares it; null where it isn't known, as of a join.</summary>
        internal string Origin { get; set; }

        /// <summary>Whether it stands for a part of a method that is written with await: a call, or what joins calls.</summary>
        internal bool IsOfMethod { get; private set; }

        /// <summary>Makes it a part of a method, which stands at this line; null for a part that the library adds.</summary>
        internal GraphTask AsPart(string origin)
        {
            IsOfMethod = true;
            Origin = origin;
            return this;
        }

        /// <summary>What stands in the document as the task's note: the line, and the note that the task was given.</summary>
        internal string Noted => Origin == null || Note == null ? Origin ?? Note : Origin + ": " + Note;

        /// <summary>The task's name in the document.</summary>
        public string Name { get; internal set; }

        /// <summary>The note that stands in the document, for readers alone; null for none.</summary>
        [MaybeNull]
        public string Note { get; private set; }

        /// <summary>Gives the task a note.</summary>
        /// <returns>The task.</returns>
        /// <exception cref="InvalidOperationException">The graph is complete: its document was made, or it was started.</exception>
        public GraphTask WithNote(string note)
        {
            Graph.DemandOpen("the note of " + Name);
            Note = note;
            return this;
        }

        internal bool Has(TaskContinuationOptions option) => (Options & option) == option;

        /// <summary>Continues this task: Task.ContinueWith on the default scheduler.</summary>
        /// <param name="name">The name of the continuation, which is that of its job too.</param>
        /// <param name="job">The job, given the antecedent. Where it reads the exception, write the body as
        /// <c>new Steps().Observe().Work(..)</c>.</param>
        /// <param name="options">The options, as Task.ContinueWith has them.</param>
        /// <param name="token">The token of the continuation itself; none if left out.</param>
        /// <param name="mayFail">Whether the job may throw.</param>
        /// <param name="file">The file that declares it; the compiler gives it.</param>
        /// <param name="line">The line; the compiler gives it.</param>
        /// <exception cref="ArgumentException">The name is none or taken, the options can't be together, or a task or token is of another
        /// graph.</exception>
        /// <exception cref="InvalidOperationException">The graph is complete: its document was made, or it was started.</exception>
        public GraphTask ContinueWith(
            string name, Action<Task> job, TaskContinuationOptions options = TaskContinuationOptions.None, GraphToken token = null,
            bool mayFail = false,
            [CallerFilePath] string file = null, [CallerLineNumber] int line = 0)
        {
            return ContinueWith(name, new Steps().Work(name, job, mayFail), options, token, file, line);
        }

        /// <summary>Continues this task by an async job: Task.ContinueWith(async ..).Unwrap().</summary>
        /// <exception cref="ArgumentException">The name is none or taken, the options can't be together, or a task or token is of another
        /// graph.</exception>
        /// <exception cref="InvalidOperationException">The graph is complete: its document was made, or it was started.</exception>
        public GraphTask ContinueWith(
            string name, Func<Task, Task> job, TaskContinuationOptions options = TaskContinuationOptions.None,
            GraphToken token = null, bool mayFail = false,
            [CallerFilePath] string file = null, [CallerLineNumber] int line = 0)
        {
            return ContinueWith(name, new Steps().Work(name, job, mayFail), options, token, file, line);
        }

        /// <summary>Continues this task by a body of several steps.</summary>
        /// <exception cref="ArgumentException">The name is none or taken, the options can't be together, or a task or token is of another
        /// graph.</exception>
        /// <exception cref="InvalidOperationException">The graph is complete: its document was made, or it was started.</exception>
        public GraphTask ContinueWith(
            string name, Steps body, TaskContinuationOptions options = TaskContinuationOptions.None, GraphToken token = null,
            [CallerFilePath] string file = null, [CallerLineNumber] int line = 0)
        {
            return Graph.Add(new GraphTask
            {
                Name = name, Kind = TaskKind.Then, Antecedent = this, Body = body, Options = options, Token = token,
                Origin = SourceLine.Of(file, line),
            });
        }
    }
}
