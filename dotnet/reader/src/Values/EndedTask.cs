using System;

namespace TaskGraph.Reading
{
    /// <summary>A task that has ended already, with a value or an exception.</summary>
    internal sealed class EndedTask : Value
    {
        public EndedTask(Value result, ThrownValue exception)
        {
            Result = result;
            Exception = exception;
        }

        public Value Result { get; }

        /// <summary>What it ended with; null where it ran to completion.</summary>
        public ThrownValue Exception { get; }

        public override string Key => "done" + (Exception ?? Result).Key;

        public static EndedTask Plain() => new EndedTask(new NullValue(), null);
    }
}
