using System.Collections.Generic;
using System.Linq;
using System.Threading.Tasks;

namespace TaskGraph.Reading
{
    /// <summary>Makes the task of a document for a task that a path makes.</summary>
    internal sealed class TaskLowering
    {
        private readonly DocumentBuilder builder;
        private readonly BodyLowering around;

        public TaskLowering(DocumentBuilder builder, BodyLowering around)
        {
            this.builder = builder;
            this.around = around;
        }

        /// <summary>A task that the outside hands to the method.</summary>
        public static void LowerOutside(DocumentBuilder builder, PathTask task)
        {
            MadeTask made = builder.Of(task);
            made.Reach = Signal.Start;
            made.Task = builder.Make(Signal.Start, task.Name, JobBody(builder, task), task.Origin, task.Token);
        }

        /// <summary>Whether a task begins just where control arrives now, so that its own end is that of the wait.</summary>
        public bool IsDirect(PathTask task, Signal at)
        {
            if (!at.IsSameAs(builder.Of(task).Reach) || (task.Shape == TaskShape.Any && !at.IsStart))
            {
                return false;
            }
            return task.Shape == TaskShape.Job || task.Shape == TaskShape.Body || task.Of.All(it => IsDirect(it, at));
        }

        public void Lower(PathNode node, Signal at)
        {
            PathTask task = node.Task;
            MadeTask made = builder.Of(task);
            made.Reach = at;
            switch (task.Shape)
            {
                case TaskShape.Job:
                    made.Task = builder.Make(at, task.Name, JobBody(builder, task), task.Origin, task.Token);
                    if (task.Token != null && !task.Token.IsOwn)
                    {
                        builder.Notes.Add(Assumption.TokenBefore, task.Origin, task.Name);
                    }
                    break;
                case TaskShape.Body:
                    made.Task = OfBody(node, at);
                    break;
                default:
                    made.Task = builder.Add(new DocumentTask(builder.TaskName(task.Name), task.Shape == TaskShape.All ? DocumentTask.All : DocumentTask.Any)
                    {
                        Of = task.Of.Select(it => builder.Of(it).Task).ToList(), Origin = task.Origin,
                    });
                    break;
            }
        }

        private static List<Statement> JobBody(DocumentBuilder builder, PathTask task)
        {
            var body = new List<Statement> { builder.Work(task.Name, task.IsSafe) };
            if (task.Token != null)
            {
                body.Add(Statement.Check(builder.TokenName(task.Token)));
            }
            return body;
        }

        private DocumentTask OfBody(PathNode node, Signal at)
        {
            PathTask task = node.Task;
            if (around.IsInner && task.Options.Contains("AttachedToParent"))
            {
                string what = "the attached child " + task.Name + " is started by a body that also waits or branches";
                throw new ReadException(RefusalCode.Attached, node.Origin, what);
            }
            var start = new BodyStart(builder, task, at, node.Origin);
            var script = new ScriptLowering(builder, task);
            List<Statement> statements = script.Statements();
            if (statements == null)
            {
                return OfMany(task, start);
            }
            DocumentTask made = start.IsOwn
                ? builder.Add(new DocumentTask(builder.TaskName(task.Name), DocumentTask.Continuation)
                {
                    After = builder.Of(task.After).Task, Body = statements, Token = task.Token, Origin = task.Origin, Options = start.Options,
                })
                : builder.Make(start.At, task.Name, statements, task.Origin, task.Token, start.Options);
            script.Children.ForEach(it => builder.Add(it));
            return made;
        }

        /// <summary>A body of several tasks.</summary>
        private DocumentTask OfMany(PathTask task, BodyStart start)
        {
            List<string> options = start.Options.Where(it => it != "DenyChildAttach").ToList();
            Signal at = start.At;
            if (task.Token != null || options.Count > 1)
            {
                at = Signal.Ran(Gate(task, at, options));
            }
            else if (start.IsOwn)
            {
                at = new Signal(builder.Of(task.After).Task, options.FirstOrDefault() ?? "");
            }
            var inner = new BodyLowering(builder, task.Body, at, start.HasSubject ? task.After : null, isInner: true);
            inner.Run();
            DocumentTask made = new Representative(builder, inner).Of(task.Name);
            made.Origin = made.Origin ?? task.Origin;
            return made;
        }

        /// <summary>A task that begins as the body does, with its options and its token.</summary>
        private DocumentTask Gate(PathTask task, Signal at, List<string> options)
        {
            var gate = new DocumentTask(builder.TaskName("Begin_" + task.Name), at.IsStart ? DocumentTask.Root : DocumentTask.Continuation)
            {
                After = at.Task, Body = new List<Statement>(), Token = task.Token, Options = options,
            };
            if (!at.IsStart && at.Option != "" && !gate.Options.Contains(at.Option))
            {
                gate.Options.Add(at.Option);
            }
            return builder.Add(gate);
        }
    }
}
