using System.Collections.Generic;
using System.Linq;

namespace TaskGraph.Reading
{
    /// <summary>Where the body of a task begins, and with which options.</summary>
    internal sealed class BodyStart
    {
        private readonly DocumentBuilder builder;

        public BodyStart(DocumentBuilder builder, PathTask task, Signal at, string origin)
        {
            this.builder = builder;
            Options = new List<string>(task.Options);
            At = at;
            HasSubject = true;
            if (task.After == null)
            {
                return;
            }
            IsOwn = true;
            DocumentTask after = builder.Of(task.After).Task;
            At = Signal.Ended(after);
            if (!at.IsStart)
            {
                BeginLate(task, at, after, origin);
            }
        }

        public List<string> Options { get; }

        public Signal At { get; private set; }

        /// <summary>Whether it is a continuation with the options as they were written.</summary>
        public bool IsOwn { get; private set; }

        /// <summary>Whether the body may look at its antecedent.</summary>
        public bool HasSubject { get; private set; }

        /// <summary>A continuation that is made only after another step.</summary>
        private void BeginLate(PathTask task, Signal at, DocumentTask after, string origin)
        {
            bool isExcluded = Options.Any(
                it => it == ContinuationFilter.OnlyOnRanToCompletion || it == ContinuationFilter.OnlyOnFaulted || it == ContinuationFilter.NotOnCanceled);
            bool isSameStep = at.IsSameAs(builder.Of(task.After).Reach) && task.After.Shape != TaskShape.Any;
            if (isSameStep && (isExcluded || !Waits.MayCancel(task.After)))
            {
                LeaveOutUnmade(isExcluded);
                return;
            }
            if (task.Body.Reachable().Any(it => it.Kind == NodeKind.Observe || it.Kind == NodeKind.When))
            {
                string what = "the continuation " + task.Name + " is made only after another step, and looks at its antecedent";
                throw new ReadException(RefusalCode.Late, origin, what);
            }
            string filter = Options.FirstOrDefault(ContinuationFilter.IsFilter);
            Options.RemoveAll(ContinuationFilter.IsFilter);
            At = builder.And(at, filter == null ? builder.Over(after) : builder.Marker(new Signal(after, filter)));
            IsOwn = HasSubject = false;
        }

        /// <summary>Where its antecedent isn't made at all, it isn't either: that antecedent is Canceled in the
        /// document.</summary>
        private void LeaveOutUnmade(bool isExcluded)
        {
            if (!isExcluded)
            {
                bool isNotRan = Options.Remove(ContinuationFilter.NotOnRanToCompletion);
                Options.Add(isNotRan ? ContinuationFilter.OnlyOnFaulted : ContinuationFilter.NotOnCanceled);
            }
        }
    }
}
