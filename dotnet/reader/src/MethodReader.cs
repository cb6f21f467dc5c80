using System.Collections.Generic;
using System.Linq;
using Mono.Cecil;

namespace TaskGraph.Reading
{
    /// <summary>Reads a method: all paths through it, and the document that a lowering makes of them.</summary>
    internal sealed class MethodReader
    {
        // where it is too much at once, fewer of the team's own methods are followed
        private static readonly int[] Depths = { 8, 2, 1, 0 };

        private readonly ReadSettings settings;
        private readonly ILowering lowering;

        public MethodReader(ReadSettings settings, ILowering lowering)
        {
            this.settings = settings;
            this.lowering = lowering;
        }

        /// <exception cref="ReadException">The method has what the reader doesn't follow.</exception>
        public ReadResult Read(MethodDefinition method)
        {
            foreach (int depth in Depths.Take(Depths.Length - 1))
            {
                try
                {
                    return Read(method, depth);
                }
                catch (ReadException refused) when (refused.Code == RefusalCode.Size || refused.Code == RefusalCode.Depth)
                {
                    // less is followed next time
                }
            }
            return Read(method, Depths.Last());
        }

        private ReadResult Read(MethodDefinition method, int depth)
        {
            var circles = new HashSet<string>();
            int steps = 0;
            while (true)
            {
                var machine = new Machine(settings, depth, circles);
                machine.Interpreter.Steps = steps;
                try
                {
                    MethodPaths paths = machine.PathsOf(method);
                    return new ReadResult(method, lowering.Lower(paths, settings, machine.Notes), machine.Notes);
                }
                catch (LoopFound found)
                {
                    AddCircle(circles, found);
                    steps = machine.Interpreter.Steps;
                }
            }
        }

        /// <summary>From now on a loop is one job.</summary>
        private static void AddCircle(HashSet<string> circles, LoopFound found)
        {
            HashSet<int> circle = new MethodFlow(found.Method).Circles.Through(found.At);
            if (circle.Count == 0 || circles.Contains(LoopFound.PlaceOf(found.Method, found.At)))
            {
                throw new ReadException(RefusalCode.Loop, Symbols.Where(found.Method, found.At), "a loop without a bound that is seen");
            }
            circles.UnionWith(circle.Select(it => LoopFound.PlaceOf(found.Method, it)));
        }
    }
}
