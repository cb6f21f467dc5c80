using System;
using System.Collections.Generic;
using System.Linq;

namespace TaskGraph.Reading
{
    /// <summary>A body that waits for nothing and catches nothing, as the statements of one task.</summary>
    internal sealed class ScriptLowering
    {
        private const int MostStatements = 64;

        private readonly DocumentBuilder builder;
        private readonly PathTask task;
        private int count;
        private bool isNone;

        public ScriptLowering(DocumentBuilder builder, PathTask task)
        {
            this.builder = builder;
            this.task = task;
        }

        /// <summary>The children that it starts.</summary>
        public List<DocumentTask> Children { get; } = new List<DocumentTask>();

        /// <summary>The statements; null where the body is no script.</summary>
        public List<Statement> Statements()
        {
            if (!IsScript(task))
            {
                return null;
            }
            Action forget = builder.Remember();
            var statements = new List<Statement>();
            Write(task.Body, null, true, statements);
            DropReturns(statements);
            if (!isNone)
            {
                return statements;
            }
            forget();
            Children.Clear();
            return null;
        }

        private static bool IsScript(PathTask task) => task.Body.Reachable().All(it => Fits(it, task));

        private static bool Fits(PathNode node, PathTask task)
        {
            switch (node.Kind)
            {
                case NodeKind.Job:
                    return !node.Out.TryGetValue(Way.Fault, out PathNode failed) || (failed.IsEnd && failed.Final == Final.Faulted);
                case NodeKind.Check:
                    PathNode stopped = node.Out[Way.Cancel];
                    return stopped.IsEnd && stopped.Final == (node.Token == task.Token ? Final.Canceled : Final.Faulted);
                case NodeKind.Spawn:
                    return IsChild(node.Task, task);
                case NodeKind.End:
                    return node.Final != Final.Canceled || (node.Exception != null && task.Token != null);
                default:
                    return node.Kind != NodeKind.Await && node.Kind != NodeKind.Winner;
            }
        }

        /// <summary>Whether a task can be a child: nothing in the body follows it.</summary>
        private static bool IsChild(PathTask child, PathTask parent)
        {
            bool isPlain = child.After == null && (child.Shape == TaskShape.Job || (child.Shape == TaskShape.Body && IsScript(child)));
            return isPlain && !parent.Body.Reachable().Any(
                it => it.Kind == NodeKind.Await || (it.Kind == NodeKind.Spawn && (it.Task.After == child || it.Task.Of.Contains(child))));
        }

        /// <summary>Writes the statements from a node up to another one.</summary>
        private void Write(PathNode from, PathNode stop, bool isOuter, List<Statement> statements)
        {
            for (PathNode node = from; node != null && node != stop && !isNone;)
            {
                isNone = ++count > MostStatements;
                node = node.Kind == NodeKind.When || node.Kind == NodeKind.If
                    ? WriteBranch(node, stop, statements)
                    : WriteStep(node, isOuter, statements);
            }
        }

        private PathNode WriteStep(PathNode node, bool isOuter, List<Statement> statements)
        {
            switch (node.Kind)
            {
                case NodeKind.Job:
                    statements.Add(builder.Work(node.Name, node.IsSafe));
                    break;
                case NodeKind.Check:
                    statements.Add(Statement.Check(builder.TokenName(node.Token)));
                    break;
                case NodeKind.Cancel:
                    statements.Add(Statement.Cancel(builder.TokenName(node.Token)));
                    break;
                case NodeKind.Observe:
                    statements.Add(Statement.Observe());
                    break;
                case NodeKind.Spawn:
                    statements.Add(Statement.Start(Child(node.Task).Name));
                    break;
                default:
                    WriteEnd(node, isOuter, statements);
                    return null;
            }
            return node.Out[Way.Ok];
        }

        private void WriteEnd(PathNode end, bool isOuter, List<Statement> statements)
        {
            if (end.Final == Final.Faulted)
            {
                statements.Add(Statement.Throw(Naming.Identifier(end.Exception.Label)));
            }
            else if (!isOuter)
            {
                statements.Add(Statement.Return());
            }
            isNone |= end.Final == Final.Canceled;
        }

        private DocumentTask Child(PathTask started)
        {
            var child = new DocumentTask(builder.TaskName(started.Name), DocumentTask.Child)
            {
                Options = started.Options, Token = started.Token, Origin = started.Origin,
            };
            Children.Add(child);
            var inner = new ScriptLowering(builder, started);
            child.Body = started.Shape == TaskShape.Job
                ? new List<Statement> { builder.Work(started.Name, started.IsSafe) }
                : inner.Statements();
            Children.AddRange(inner.Children);
            isNone |= child.Body == null;
            return child;
        }

        /// <summary>Writes a branch, and gives the node at which its ways meet; null where they don't.</summary>
        private PathNode WriteBranch(PathNode node, PathNode stop, List<Statement> statements)
        {
            PathNode yes = node.Out[Way.Yes], no = node.Out[Way.No];
            PathNode meeting = Meeting(yes, no);
            List<Statement> then = Part(yes, meeting);
            if (meeting == null && !EndsWell(yes))
            {
                statements.Add(Branch(node, then, new List<Statement>()));
                return no;
            }
            List<Statement> otherwise = Part(no, meeting);
            if (meeting == null && !EndsWell(no))
            {
                statements.Add(Branch(node, new List<Statement>(), otherwise));
                statements.AddRange(then);
                return null;
            }
            statements.Add(Branch(node, then, otherwise));
            return meeting;
        }

        private List<Statement> Part(PathNode from, PathNode stop)
        {
            var part = new List<Statement>();
            Write(from, stop, false, part);
            return part;
        }

        /// <summary>The first node that each way passes, if it doesn't end before.</summary>
        private static PathNode Meeting(PathNode yes, PathNode no)
        {
            var other = new HashSet<PathNode>(no.Reachable());
            List<PathNode> common = yes.Reachable().Where(it => !it.IsEnd && other.Contains(it) && !Escapes(yes, it) && !Escapes(no, it)).ToList();
            PathNode meeting = common.FirstOrDefault();
            foreach (PathNode node in common.Where(it => Escapes(it, null)))
            {
                meeting = node.Reachable().Contains(meeting) ? node : meeting;
            }
            return meeting;
        }

        /// <summary>Whether an end can be reached without passing a node, where nothing fails.</summary>
        private static bool Escapes(PathNode from, PathNode passed)
        {
            var seen = new HashSet<PathNode>();
            var open = new Stack<PathNode>();
            open.Push(from);
            while (open.Count > 0)
            {
                PathNode node = open.Pop();
                if (node == passed || !seen.Add(node))
                {
                    continue;
                }
                if (node.IsEnd)
                {
                    return true;
                }
                foreach (KeyValuePair<Way, PathNode> next in node.Out.Where(it => it.Key != Way.Fault && it.Key != Way.Cancel))
                {
                    open.Push(next.Value);
                }
            }
            return false;
        }

        private static bool EndsWell(PathNode from) => from.Ends().Any(it => it.Final == Final.RanToCompletion);

        private Statement Branch(PathNode node, List<Statement> then, List<Statement> otherwise)
        {
            List<Statement> orElse = otherwise.Count == 0 ? null : otherwise;
            return node.Kind == NodeKind.When
                ? Statement.When(node.Final, then, orElse)
                : Statement.If(builder.InputName(node.Input), then, orElse);
        }

        /// <summary>A return at the end of a body says nothing.</summary>
        private static void DropReturns(List<Statement> statements)
        {
            while (statements.Count > 0 && statements[statements.Count - 1].IsReturn)
            {
                statements.RemoveAt(statements.Count - 1);
            }
            Statement last = statements.LastOrDefault();
            if (last?.Then == null)
            {
                return;
            }
            DropReturns(last.Then);
            if (last.Else != null)
            {
                DropReturns(last.Else);
                last.DropEmptyElse();
            }
        }
    }
}
