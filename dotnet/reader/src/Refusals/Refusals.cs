using System.Collections.Generic;
using System.Linq;
using Mono.Cecil.Cil;

namespace TaskGraph.Reading
{
    /// <summary>What to do about each refusal.</summary>
    public static class Refusals
    {
        private static readonly Dictionary<RefusalCode, string> Advice = new Dictionary<RefusalCode, string>
        {
            { RefusalCode.Attached, "wait for the child by itself, or start it from a body that only starts children" },
            { RefusalCode.Await, "await a Task or a ValueTask, or name the method that awaits this with --job" },
            { RefusalCode.Callback, "move the tasks out of the lambda, or name the method that takes it with --job" },
            { RefusalCode.Captured, "assign the task once, before the lambda that reads it is made" },
            { RefusalCode.ColdTask, "use Task.Run or Task.Factory.StartNew" },
            { RefusalCode.Continuation, "continue a task that this method makes, or is given" },
            { RefusalCode.Delegate, "give the lambda or the method at this place" },
            { RefusalCode.Depth, "name a method on the way with --job" },
            { RefusalCode.Instruction, "write it without pointers and without dynamic, or move it into a method and name that with --job" },
            { RefusalCode.Join, "join tasks that this method makes, and at least one" },
            { RefusalCode.Late, "make the continuation at once, or await the task and branch behind it" },
            { RefusalCode.List, "join tasks whose number stands in the code, or name the method that joins them with --job" },
            { RefusalCode.Loop, "give the loop a bound that stands in the code, or move it into a method and name that with --job" },
            { RefusalCode.Options, "write the options at this place" },
            { RefusalCode.Outer, "put Unwrap() behind it, or use Task.Run" },
            { RefusalCode.Parallel, "move the tasks out of the body" },
            { RefusalCode.Paths, "split the method where the paths meet, or name a part of it with --job" },
            { RefusalCode.Register, "let the callback do jobs only, or end a TaskCompletionSource" },
            { RefusalCode.Size, "name parts of the method with --job" },
            { RefusalCode.Task, "use a call that docs/READER.md lists" },
            { RefusalCode.Token, "make the source in this method, or take it as a parameter" },
            { RefusalCode.Unwrap, "unwrap a task that this method makes" },
            { RefusalCode.Wait, "leave the time and the token out: the task has ended when its continuation begins" },
            { RefusalCode.Winner, "compare the winner with its tasks, and wait for those by their own names" },
        };

        /// <summary>What to do where a method is refused for this.</summary>
        public static string AdviceOn(RefusalCode code) => Advice[code];

        /// <summary>The word by which answers and docs/READER.md name a refusal.</summary>
        public static string WordOf(RefusalCode code) =>
            string.Concat(code.ToString().Select((it, at) => at > 0 && char.IsUpper(it) ? "-" + char.ToLowerInvariant(it) : char.ToLowerInvariant(it).ToString()));
    }
}
