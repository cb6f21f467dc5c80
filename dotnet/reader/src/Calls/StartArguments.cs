using System.Collections.Generic;
using System.Linq;

namespace TaskGraph.Reading
{
    /// <summary>What is given where a task is started.</summary>
    internal sealed class StartArguments
    {
        public StartArguments(DelegateValue body, string name)
        {
            Body = body;
            Name = name;
        }

        public DelegateValue Body { get; }

        /// <summary>The variable of the task, or what its body does.</summary>
        public string Name { get; }

        public PathToken Token { get; set; }

        public List<string> Options { get; set; } = new List<string>();

        /// <summary>The object that is handed to the body; null for none.</summary>
        public Value State { get; set; }

        /// <summary>What the body is handed: its subject, if it is a continuation, and the object.</summary>
        public List<Value> WithState(Value subject) => new[] { subject, State }.Where(it => it != null).ToList();
    }
}
