using System.Collections.Generic;
using System.Linq;

namespace TaskGraph.Reading
{
    /// <summary>The lowering to documents of version 3: a method with await is many tasks, with markers where its paths part
    /// and meet.</summary>
    internal sealed class MarkerLowering : ILowering
    {
        public ReadDocument Lower(MethodPaths paths, ReadSettings settings, Notes notes)
        {
            var builder = new DocumentBuilder(paths, notes);
            foreach (PathTask task in paths.Tasks.Where(it => it.IsOutside))
            {
                TaskLowering.LowerOutside(builder, task);
            }
            var body = new BodyLowering(builder, paths.Root, Signal.Start, null, isInner: false);
            body.Run();
            string ends = null;
            if (body.Endings.Count > 1 || body.Endings.Any(it => !it.Signal.IsStart))
            {
                DocumentTask whole = new Representative(builder, body).Of(Naming.Identifier(paths.Name));
                ends = whole.Name;
                if (settings.HasCaller)
                {
                    builder.MakeMarker(Signal.Ended(whole), "Caller", new List<Statement> { Statement.Observe() });
                }
            }
            return builder.Document(ends);
        }
    }
}
