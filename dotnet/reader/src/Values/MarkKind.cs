namespace TaskGraph.Reading
{
    /// <summary>What a mark stands for.</summary>
    internal enum MarkKind
    {
        /// <summary>The object that keeps the lambdas which capture nothing.</summary>
        LambdaHolder,

        /// <summary>A token of metadata, as typeof has it.</summary>
        Metadata,

        /// <summary>The builder of an async method that hasn't ended.</summary>
        Builder,

        /// <summary>The builder of an async method that has ended, with its task.</summary>
        EndedBuilder,

        /// <summary>A TaskCompletionSource, with its task.</summary>
        Completion,

        /// <summary>Task.Factory.</summary>
        Factory,

        /// <summary>The task that a continuation is handed, with the task that it follows.</summary>
        Subject,

        /// <summary>The same for a continuation of a WhenAny.</summary>
        AnySubject,

        /// <summary>The tasks that a continuation of many is handed.</summary>
        Subjects,

        /// <summary>The tasks that a lambda makes for each item of a list whose length isn't known.</summary>
        Many,

        /// <summary>Whether the subject ended in this way.</summary>
        EndsAs,

        /// <summary>The opposite of a mark or a value.</summary>
        Not,

        /// <summary>The status of the subject.</summary>
        Status,
    }
}
