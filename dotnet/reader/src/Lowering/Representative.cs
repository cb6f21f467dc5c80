using System;
using System.Collections.Generic;
using System.Linq;
using System.Threading.Tasks;

namespace TaskGraph.Reading
{
    /// <summary>One task that ends as a whole body does.</summary>
    internal sealed class Representative
    {
        private readonly DocumentBuilder builder;
        private readonly BodyLowering body;
        private readonly TaskLowering tasks;
        private readonly HashSet<Place> covered = new HashSet<Place>();
        private readonly List<DocumentTask> parts = new List<DocumentTask>();

        public Representative(DocumentBuilder builder, BodyLowering body)
        {
            this.builder = builder;
            this.body = body;
            tasks = new TaskLowering(builder, body);
        }

        public DocumentTask Of(string name)
        {
            if (!body.Start.IsStart)
            {
                parts.Add(builder.Marker(body.Start));
            }
            foreach (Place place in body.Places.Order.Where(IsPart))
            {
                parts.Add(place.Task);
                covered.Add(place);
            }
            body.Endings.ForEach(it => Add(it, name));
            List<DocumentTask> distinct = parts.Distinct().ToList();
            return distinct.Count == 0
                ? builder.Make(body.Start, name, new List<Statement>(), null)
                : builder.All(distinct, name);
        }

        /// <summary>Whether the body doesn't run to completion without the task of this place, and fails where that
        /// fails.</summary>
        private bool IsPart(Place place)
        {
            bool isStep = place.Kind == NodeKind.Job || place.Kind == NodeKind.Await || place.Kind == NodeKind.Check;
            if (!isStep || place.Task == null)
            {
                return false;
            }
            List<Ending> well = body.Endings.Where(it => it.IsRan).ToList();
            bool isNeeded = well.All(it => it.From != null && it.From.Dominators.Contains(place))
                && (place.Kind != NodeKind.Await || tasks.IsDirect(place.First.Task, place.In));
            List<PathNode> failed = EndsBehind(place, Way.Fault).ToList(), canceled = EndsBehind(place, Way.Cancel).ToList();
            bool endsSo = failed.All(it => it.Final == Final.Faulted) && canceled.All(it => it.Final == Final.Canceled);
            return isNeeded && endsSo && (failed.Any() || canceled.Any() || well.Any(it => it.From == place));
        }

        private static IEnumerable<PathNode> EndsBehind(Place place, Way way) =>
            place.Behind(way).SelectMany(it => it.Ends()).Distinct();

        private void Add(Ending ending, string name)
        {
            Place origin = body.Places.OriginOf(ending.Exception);
            bool isStart = ending.Signal.IsStart;
            if (ending.IsRan)
            {
                if (!isStart && !(ending.From != null && covered.Contains(ending.From)) && ending.Signal.Task != body.Start.Task)
                {
                    parts.Add(builder.Over(ending.Signal.Task));
                }
            }
            else if (origin != null && covered.Contains(origin))
            {
                if (ending.From != origin && !isStart)
                {
                    parts.Add(builder.Over(ending.Signal.Task));
                }
            }
            else if (isStart)
            {
                Statement thrown = Statement.Throw(Naming.Identifier(ending.Exception.Label));
                parts.Add(builder.Make(body.Start, "Throw_" + name, new List<Statement> { thrown }, null));
            }
            else
            {
                parts.Add(ending.Final == Final.Faulted ? Failing(ending, origin) : Canceled(ending));
            }
        }

        /// <summary>A task that fails just where control arrives, and runs to completion otherwise.</summary>
        private DocumentTask Failing(Ending ending, Place origin)
        {
            bool isThrown = ending.Exception != null && ending.Exception.Origin == ThrownValue.Here;
            string label = isThrown ? Naming.Identifier(ending.Exception.Label) : "Rethrown";
            string from = origin?.First.Name ?? origin?.First.Task?.Name ?? ending.From?.First.Name ?? "it";
            Signal signal = ending.Signal;
            bool isPlain = signal.IsRan || signal.IsFault || signal.Option == "";
            DocumentTask at = isPlain ? signal.Task : builder.Marker(signal);
            Statement statement = Statement.Throw(label);
            if (signal.Option != "")
            {
                statement = Statement.When(signal.IsFault
                  ? Final.Faulted
                  : Final.RanToCompletion, new List<Statement> { statement });
            }
            string name = isThrown ? "Throw_" + label : "Rethrow_" + from;
            return builder.MakeMarker(Signal.Ended(at), name, new List<Statement> { statement }, ending.From?.First.Origin);
        }

        /// <summary>A task that is canceled just where control arrives, and runs to completion otherwise.</summary>
        private DocumentTask Canceled(Ending ending)
        {
            var unless = new Signal(builder.AsRan(ending.Signal), ContinuationFilter.NotOnRanToCompletion);
            return builder.MakeMarker(unless, "Unless_canceled", new List<Statement>(), ending.From?.First.Origin);
        }
    }
}
