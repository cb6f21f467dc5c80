namespace TaskGraph.Reading
{
    /// <summary>What happens at a node of a path.</summary>
    internal enum NodeKind
    {
        /// <summary>A call that isn't followed.</summary>
        Job,

        /// <summary>A task is made.</summary>
        Spawn,

        /// <summary>A task is waited for.</summary>
        Await,

        /// <summary>The task that a WhenAny gave is waited for.</summary>
        Winner,

        /// <summary>A token is looked at, and throws where it is requested.</summary>
        Check,

        /// <summary>A token is requested.</summary>
        Cancel,

        /// <summary>The exception of the subject is read.</summary>
        Observe,

        /// <summary>A branch on how the subject ended.</summary>
        When,

        /// <summary>A branch on a value that isn't known.</summary>
        If,

        /// <summary>The body has ended.</summary>
        End,
    }
}
