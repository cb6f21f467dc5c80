using System;
using System.Collections.Generic;
using System.Runtime.CompilerServices;
using System.Threading;
using System.Threading.Tasks;
using TaskGraph.Internals;

namespace TaskGraph
{
    /// <summary>Calls of a method that are awaited together.</summary>
    public sealed class MethodCalls
    {
        internal List<GraphTask> Tasks { get; } = new List<GraphTask>();
        private readonly Func<string, Steps, GraphToken, string, GraphTask> add;

        internal MethodCalls(Func<string, Steps, GraphToken, string, GraphTask> add)
        {
            this.add = add;
        }

        /// <summary>Makes a call: <c>Users()</c> in <c>Task.WhenAll(Users(), Orders())</c>.</summary>
        /// <exception cref="ArgumentException">The name is none or taken, the options can't be together, or a task or token is of another
        /// graph.</exception>
        public MethodCalls Call(
            string name, Func<Task> call, bool mayFail = false,
            [CallerFilePath] string file = null, [CallerLineNumber] int line = 0)
        {
            return Call(name, new Steps().Work(name, call, mayFail), null, file, line);
        }

        /// <summary>Makes a call that may stop by a token.</summary>
        /// <exception cref="ArgumentException">The name is none or taken, the options can't be together, or a task or token is of another
        /// graph.</exception>
        public MethodCalls Call(
            string name, GraphToken token, Func<CancellationToken, Task> call, bool mayFail = false,
            [CallerFilePath] string file = null, [CallerLineNumber] int line = 0)
        {
            return Call(name, new Steps().Work(name, token, call, mayFail), token, file, line);
        }

        /// <summary>Makes a call of several steps.</summary>
        /// <exception cref="ArgumentException">The name is none or taken, the options can't be together, or a task or token is of another
        /// graph.</exception>
        public MethodCalls Call(
            string name, Steps body, GraphToken token = null,
            [CallerFilePath] string file = null, [CallerLineNumber] int line = 0)
        {
            Tasks.Add(add(name, body, token, SourceLine.Of(file, line)));
            return this;
        }
    }
}
