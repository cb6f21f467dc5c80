using System.Collections.Generic;

namespace TaskGraph.Reading
{
    /// <summary>The sentences that say what a document takes for granted; docs/READER.md has each.</summary>
    public static class Assumptions
    {
        private static readonly Dictionary<Assumption, string> Sentences = new Dictionary<Assumption, string>
        {
            { Assumption.AsyncVoid, "nobody can wait for an async void method, and its exception reaches nobody" },
            { Assumption.AwaitReads, "an await that reads an exception only where the steps before it ended well counts as reading none" },
            { Assumption.BaseLibrary, "these calls of the base library throw nothing" },
            { Assumption.Blocking, "a wait that blocks a thread is taken for an await, so nothing is said of a deadlock" },
            { Assumption.Callback, "a callback isn't in the document: it does jobs only, requests a token, or ends a source that may end at any moment" },
            { Assumption.Cancellations, "only cancellations are OperationCanceledExceptions" },
            { Assumption.Completion, "a task that code elsewhere ends may end in each way at any moment" },
            { Assumption.Endless, "a loop ends by an exception alone" },
            { Assumption.Field, "a field keeps the task or source that was put there" },
            { Assumption.Filter, "a filter of a catch runs once the finally blocks inside have run" },
            { Assumption.HandedOver, "what is done with a task or source that is handed to other code isn't in the document" },
            { Assumption.InTime, "whether a wait with a time or a token ends before it goes both ways" },
            { Assumption.LoopJob, "a loop without a bound is one job: claims can't speak of what is inside" },
            { Assumption.Many, "a WhenAll over tasks whose number isn't known is one job" },
            { Assumption.NotNull, "what is disposed of isn't null" },
            { Assumption.NoCancel, "a job that gets no token never ends Canceled" },
            { Assumption.NotFollowed, "a method that is too deep or calls itself is one job: the tasks inside it aren't in the document" },
            { Assumption.Outside, "a task that comes from outside may end in each way" },
            { Assumption.Overridden, "a virtual method is the one of this class" },
            { Assumption.ReadElsewhere, "an exception that is read elsewhere than in a continuation of its task counts as read by nobody" },
            { Assumption.Scheduler, "the scheduler of a task isn't in the document" },
            { Assumption.Status, "how a task ended goes both ways where it isn't known" },
            { Assumption.TokenBefore, "a job isn't called where its token is requested before; in C# it is called, and stops by itself" },
            { Assumption.Winner, "which task won a WhenAny goes both ways" },
        };

        /// <summary>What is taken for granted, as a sentence without a full stop.</summary>
        public static string SentenceOf(Assumption assumption) => Sentences[assumption];
    }
}
