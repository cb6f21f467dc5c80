namespace TaskGraph
{
    /// <summary>What a note on a run is about.</summary>
    public enum RunNoteKind
    {
        /// <summary>A synchronous continuation began on another thread than the one that ended its antecedent, as one that is
        /// registered after that end does. The journal has the antecedent's worker; no claim speaks of workers.</summary>
        Worker,

        /// <summary>A body began after its token was requested: the scheduler had looked at the token before. The journal has the begin
        /// right before the request.</summary>
        Begin,

        /// <summary>A linked token was requested later than its source. By the documentation they are requested at once.</summary>
        Link,

        /// <summary>The end of a task stands later in the journal than it was seen, since a WhenAny took another task.</summary>
        Late,

        /// <summary>A WhenAny took another task than the one that the journal has as the first. No body looks at the winner.</summary>
        Winner,

        /// <summary>The same, and a body looks at the winner: no journal says what happened.</summary>
        WinnerLookedAt,

        /// <summary>A task began or ended where the declaration doesn't allow it.</summary>
        Unexplained,

        /// <summary>A job threw that isn't declared with mayFail.</summary>
        Undeclared,

        /// <summary>A callback of a token threw out of Cancel.</summary>
        Callback,

        /// <summary>A wrapped body did its job elsewhere than in Work, so that nobody saw it.</summary>
        Unreported,

        /// <summary>A wrapped body ran in another task than the one that Is names.</summary>
        OtherTask,
    }
}
