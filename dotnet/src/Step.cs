using System;
using System.Threading.Tasks;

namespace TaskGraph.Internals
{
    /// <summary>One step of a body, which is both written into the document and executed.</summary>
    internal sealed class Step
    {
        internal StepKind Kind { get; set; }

        /// <summary>The site of a job, or the label of a thrown exception.</summary>
        internal string Text { get; set; }

        /// <summary>Of a job: whether it may throw.</summary>
        internal bool MayFail { get; set; }

        /// <summary>Of a check and a cancel: the token. Of a job: the token whose OperationCanceledException it may throw.</summary>
        internal GraphToken Token { get; set; }

        internal GraphTask Child { get; set; }
        internal GraphInput Input { get; set; }

        /// <summary>Of a branch on how the subject ended: the way that is asked for.</summary>
        internal TaskStatus Final { get; set; }

        /// <summary>The job, given the antecedent; null where the job is awaited.</summary>
        internal Action<Task> Job { get; set; }

        /// <summary>The job that is awaited, given the antecedent; null where it isn't.</summary>
        internal Func<Task, Task> AsyncJob { get; set; }

        /// <summary>Of a throw: makes the exception, given the subject.</summary>
        internal Func<Task, Exception> Exception { get; set; }

        /// <summary>Of a branch: the steps where the answer is yes.</summary>
        internal Steps Then { get; set; }

        /// <summary>Of a branch: the steps where it is no.</summary>
        internal Steps Otherwise { get; set; }

        internal bool IsBranch => Then != null;
    }
}
