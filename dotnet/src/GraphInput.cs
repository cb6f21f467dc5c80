using System;

namespace TaskGraph
{
    /// <summary>A value that a document fixes before the run: a switch, a setting, the operating system; or the answer of a condition, which
    /// the run itself finds.</summary>
    /// <remarks>Made by <see cref="TaskGraphBuilder.Input"/> and <see cref="TaskGraphBuilder.Decides"/>.</remarks>
    public sealed class GraphInput
    {
        private readonly object gate = new object();

        // asks for the value where it is first read; null where it is fixed before the run
        private readonly Func<bool> condition;
        private bool value;
        private bool isFixed;
        private bool isRead;
        private bool isSet;

        internal GraphInput(string name, bool value, Func<bool> condition = null)
        {
            Name = name;
            this.value = value;
            this.condition = condition;
        }

        /// <summary>The input's name in the document.</summary>
        public string Name { get; }

        /// <summary>The value that a run has; to be set before <see cref="TaskGraphBuilder.Start"/>. That of a condition is the answer that the
        /// run found, and false before.</summary>
        /// <exception cref="InvalidOperationException">It is set after the start, or it is that of a condition.</exception>
        public bool Value
        {
            get
            {
                lock (gate)
                {
                    return value;
                }
            }

            set
            {
                if (condition != null)
                {
                    throw new InvalidOperationException("the run itself decides " + Name + "; to set its value, declare it by Input");
                }
                if (isFixed)
                {
                    throw new InvalidOperationException("the run has begun; set the value of " + Name + " before Start");
                }
                this.value = value;
                isSet = true;
            }
        }

        /// <summary>Whether the run itself decides the value.</summary>
        internal bool IsCondition => condition != null;

        /// <summary>Whether nobody has set the value, and no condition decides it.</summary>
        internal bool IsOpen => !isSet && !IsCondition;

        /// <summary>The run begins.</summary>
        internal void Fix()
        {
            isFixed = true;
        }

        /// <summary>The value, where a body reads it: a condition is asked once in a run.</summary>
        internal bool Read()
        {
            lock (gate)
            {
                if (condition != null && !isRead)
                {
                    value = condition();
                    isRead = true;
                }
                return value;
            }
        }

        /// <summary>What watched code found.</summary>
        /// <exception cref="InvalidOperationException">The input has another value already.</exception>
        internal bool Note(bool found)
        {
            lock (gate)
            {
                bool isKnown = isRead || condition == null;
                if (isKnown && value != found)
                {
                    throw new InvalidOperationException(
                        Name + " is " + Words(value) + " in this run, and was found to be " + Words(found)
                        + "; declare an input for each condition by Decides, or set its Value before Watch");
                }
                isRead = true;
                return value = found;
            }
        }

        private static string Words(bool value) => value ? "true" : "false";
    }
}
