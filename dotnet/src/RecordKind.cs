namespace TaskGraph.Internals
{
    /// <summary>What a record is of.</summary>
    internal enum RecordKind : byte
    {
        /// <summary>The first instruction of a body.</summary>
        Begin,

        /// <summary>A step that asks nothing and changes nothing.</summary>
        Step,

        /// <summary>A step that is about to start a child.</summary>
        Start,

        /// <summary>A check of a token that isn't requested.</summary>
        CheckPassed,

        /// <summary>A check of a requested token.</summary>
        CheckHit,

        /// <summary>Cancel is about to be called.</summary>
        CancelCalled,

        /// <summary>Cancel has come back.</summary>
        CancelReturned,

        /// <summary>A job is done.</summary>
        Done,

        /// <summary>A job has thrown.</summary>
        Failed,

        /// <summary>The last instruction of a body.</summary>
        Over,

        /// <summary>A look that no body made.</summary>
        Look,
    }
}
