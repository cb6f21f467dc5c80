namespace TaskGraph.Reading
{
    /// <summary>What a document takes for granted of the code. Each that is used stands in its note.</summary>
    public enum Assumption
    {
        /// <summary>An async void method.</summary>
        AsyncVoid,

        /// <summary>An await that reads an exception only on some paths.</summary>
        AwaitReads,

        /// <summary>A call of the base library that throws nothing.</summary>
        BaseLibrary,

        /// <summary>A wait that blocks a thread.</summary>
        Blocking,

        /// <summary>A callback of a token.</summary>
        Callback,

        /// <summary>Only cancellations are OperationCanceledExceptions.</summary>
        Cancellations,

        /// <summary>A TaskCompletionSource.</summary>
        Completion,

        /// <summary>A loop that nothing but an exception leaves.</summary>
        Endless,

        /// <summary>A field that got a task keeps it.</summary>
        Field,

        /// <summary>Filters run once the inner finally blocks have run.</summary>
        Filter,

        /// <summary>A task or a source is handed to code that isn't followed.</summary>
        HandedOver,

        /// <summary>A wait with a time or a token.</summary>
        InTime,

        /// <summary>A loop without a bound is one job.</summary>
        LoopJob,

        /// <summary>Tasks whose number isn't known are one job.</summary>
        Many,

        /// <summary>What a job gives isn't null where it is disposed of.</summary>
        NotNull,

        /// <summary>A job without a token never ends Canceled.</summary>
        NoCancel,

        /// <summary>A method that is too deep, or calls itself, is a job.</summary>
        NotFollowed,

        /// <summary>A task that comes from outside.</summary>
        Outside,

        /// <summary>A virtual method isn't overridden.</summary>
        Overridden,

        /// <summary>An exception that is read elsewhere than in a continuation.</summary>
        ReadElsewhere,

        /// <summary>A scheduler is given.</summary>
        Scheduler,

        /// <summary>A status that isn't known goes both ways.</summary>
        Status,

        /// <summary>A job isn't called where its token is requested before.</summary>
        TokenBefore,

        /// <summary>The winner of a WhenAny goes both ways.</summary>
        Winner,
    }
}
