using System;
using System.Collections.Generic;
using System.Linq;
using System.Threading.Tasks;

namespace TaskGraph.Reading
{
    /// <summary>Makes the task of a place, and says where control goes on.</summary>
    internal sealed class StepLowering
    {
        private readonly DocumentBuilder builder;
        private readonly BodyLowering body;
        private readonly TaskLowering tasks;
        private readonly Dictionary<NodeKind, Action<Place>> byKind;

        public StepLowering(DocumentBuilder builder, BodyLowering body)
        {
            this.builder = builder;
            this.body = body;
            tasks = new TaskLowering(builder, body);
            byKind = new Dictionary<NodeKind, Action<Place>>
            {
                { NodeKind.Job, Job }, { NodeKind.Check, Check }, { NodeKind.Cancel, Cancel }, { NodeKind.If, If }, { NodeKind.Observe, Observe },
                { NodeKind.When, When }, { NodeKind.Spawn, Spawn }, { NodeKind.Await, Await }, { NodeKind.Winner, Winner },
            };
        }

        public void Lower(Place place) => byKind[place.Kind](place);

        private static List<Statement> Body(params Statement[] statements) => statements.ToList();

        private void Job(Place place)
        {
            PathNode node = place.First;
            DocumentTask task = builder.Make(place.In, Naming.OfTask(node.Name), Body(builder.Work(node.Name, node.IsSafe)), node.Origin);
            place.Task = task;
            place.SetEdge(Way.Ok, () => Signal.Ran(task));
            place.SetEdge(Way.Fault, () => Signal.Faulted(task));
        }

        private void Check(Place place)
        {
            PathToken token = place.First.Token;
            Statement check = Statement.Check(builder.TokenName(token));
            DocumentTask task = builder.Make(place.In, "Check_" + token.Name, Body(check), place.First.Origin, token);
            place.Task = task;
            place.SetEdge(Way.Ok, () => Signal.Ran(task));
            place.SetEdge(Way.Cancel, () => Canceled(place.In, task));
        }

        private void Cancel(Place place)
        {
            PathToken token = place.First.Token;
            Statement cancel = Statement.Cancel(builder.TokenName(token));
            DocumentTask task = builder.Make(place.In, "Cancel_" + token.Name, Body(cancel), place.First.Origin);
            place.SetEdge(Way.Ok, () => Signal.Ran(task));
        }

        private void If(Place place)
        {
            string input = builder.InputName(place.First.Input);
            Statement unless = Statement.If(input, Body(), Body(Statement.Throw("No")));
            Statement onlyIf = Statement.If(input, Body(Statement.Throw("Yes")));
            place.SetEdge(Way.Yes, () => Signal.Ran(builder.MakeMarker(place.In, Naming.OfTask(input), Body(unless), place.First.Origin)));
            place.SetEdge(Way.No, () => Signal.Ran(builder.MakeMarker(place.In, "Not_" + input, Body(onlyIf), place.First.Origin)));
        }

        private void Observe(Place place)
        {
            DocumentTask subject = body.Subject == null ? null : builder.Of(body.Subject).Task;
            if (subject == null || place.In.Task != subject)
            {
                builder.Notes.Add(Assumption.ReadElsewhere, place.First.Origin);
                place.SetEdge(Way.Ok, () => place.In);
                return;
            }
            List<Statement> read = place.In.IsFault ? Body() : Body(Statement.Observe());
            DocumentTask task = builder.Make(place.In, "Observe_" + body.Subject.Name, read, place.First.Origin);
            place.SetEdge(Way.Ok, () => Signal.Ran(task));
        }

        private void When(Place place)
        {
            Final final = place.First.Final;
            DocumentTask subject = builder.Of(body.Subject).Task;
            if (body.Subject.Shape == TaskShape.Any)
            {
                Statement isSo = Statement.When(final, Body(), Body(Statement.Throw("No")));
                Statement isNot = Statement.When(final, Body(Statement.Throw("Yes")));
                place.SetEdge(Way.Yes, () => And(place.In, builder.MakeMarker(Signal.Ended(subject), "If_" + final, Body(isSo), place.First.Origin)));
                place.SetEdge(Way.No, () => And(place.In, builder.MakeMarker(Signal.Ended(subject), "If_" + final, Body(isNot), place.First.Origin)));
                return;
            }
            place.SetEdge(Way.Yes, () => And(place.In, builder.Marker(new Signal(subject, "OnlyOn" + final))));
            place.SetEdge(Way.No, () => And(place.In, builder.Marker(new Signal(subject, "NotOn" + final))));
        }

        private void Spawn(Place place)
        {
            PathTask task = place.First.Task;
            tasks.Lower(place.First, place.In);
            MadeTask made = builder.Of(task);
            foreach (PathNode other in place.Members.Skip(1))
            {
                DemandSameMembers(place, task, other.Task);
                builder.Of(other.Task).Task = made.Task;
                builder.Of(other.Task).Reach = made.Reach;
            }
            place.Task = made.Task;
            place.SetEdge(Way.Ok, () => place.In);
        }

        private void DemandSameMembers(Place place, PathTask one, PathTask other)
        {
            IEnumerable<DocumentTask> first = one.Of.Select(it => builder.Of(it).Task), second = other.Of.Select(it => builder.Of(it).Task);
            if (!first.SequenceEqual(second))
            {
                throw new ReadException(RefusalCode.Paths, place.First.Origin, "a join of other tasks on another path");
            }
        }

        private void Await(Place place)
        {
            MadeTask made = MadeBefore(place);
            place.Task = made.Task;
            if (tasks.IsDirect(place.First.Task, place.In) || place.In.IsStart)
            {
                place.SetEdge(Way.Ok, () => Signal.Ran(made.Task));
                place.SetEdge(Way.Fault, () => Signal.Faulted(made.Task));
                place.SetEdge(Way.Cancel, () => Canceled(place.In, made.Task));
                return;
            }
            place.SetEdge(Way.Ok, () => Signal.Ran(builder.All(new[] { builder.AsRan(place.In), made.Task }, "Got_" + place.First.Task.Name)));
            place.SetEdge(Way.Fault, () => LateFault(place, made.Task));
            place.SetEdge(Way.Cancel, () => Canceled(place.In, made.Task));
        }

        /// <summary>An await behind another step reads an exception only where that step ended well; a document can't say
        /// so.</summary>
        private Signal LateFault(Place place, DocumentTask task)
        {
            builder.Notes.Add(Assumption.AwaitReads, place.First.Origin, place.First.Task.Name);
            return builder.And(place.In, builder.Marker(Signal.Faulted(task)));
        }

        private MadeTask MadeBefore(Place place)
        {
            MadeTask made = builder.Of(place.First.Task);
            if (made.Task == null)
            {
                string name = place.First.Task.Name;
                throw new ReadException(RefusalCode.Paths, place.First.Origin, name + " isn't made on this path before it is waited for");
            }
            if (place.Members.Any(it => builder.Of(it.Task).Task != made.Task))
            {
                throw new ReadException(RefusalCode.Paths, place.First.Origin, "the task that is waited for depends on the path");
            }
            return made;
        }

        private void Winner(Place place)
        {
            DocumentTask any = MadeBefore(place).Task;
            foreach (var end in new[] { Tuple.Create(Way.Ok, Final.RanToCompletion), Tuple.Create(Way.Fault, Final.Faulted), Tuple.Create(Way.Cancel, Final.Canceled) })
            {
                List<Statement> then = place.In.IsStart && end.Item2 == Final.Faulted ? Body(Statement.Observe()) : Body();
                Statement isSo = Statement.When(end.Item2, then, Body(Statement.Throw("No")));
                place.SetEdge(end.Item1, () => builder.And(place.In, builder.MakeMarker(Signal.Ended(any), "Winner_" + end.Item2, Body(isSo), place.First.Origin)));
            }
        }

        private Signal Canceled(Signal at, DocumentTask task) =>
            at.IsStart ? Signal.Canceled(task) : builder.And(at, builder.Marker(Signal.Canceled(task)));

        private Signal And(Signal at, DocumentTask marker) =>
            at.IsSameAs(body.Start) ? Signal.Ran(marker) : builder.And(at, marker);
    }
}
