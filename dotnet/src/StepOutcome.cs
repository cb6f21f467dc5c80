namespace TaskGraph.Internals
{
    /// <summary>How a body goes on after a step.</summary>
    internal enum StepOutcome
    {
        /// <summary>By the next step.</summary>
        Next,

        /// <summary>By the steps of the branch where the answer was yes.</summary>
        Then,

        /// <summary>By the steps of the branch where it was no.</summary>
        Otherwise,

        /// <summary>By the step's job.</summary>
        Job,

        /// <summary>Not at all: it is over.</summary>
        Over,
    }
}
