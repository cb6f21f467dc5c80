namespace TaskGraph.Reading
{
    /// <summary>The shapes of tasks.</summary>
    internal enum TaskShape
    {
        /// <summary>It isn't followed: an async call of the outside.</summary>
        Job,

        /// <summary>Its body is followed.</summary>
        Body,

        /// <summary>WhenAll.</summary>
        All,

        /// <summary>WhenAny.</summary>
        Any,
    }
}
