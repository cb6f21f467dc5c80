using Mono.Cecil.Cil;

namespace TaskGraph.Reading
{
    /// <summary>Why a method can't be read. What to do stands in <see cref="Refusals"/> and in docs/READER.md.</summary>
    public enum RefusalCode
    {
        /// <summary>A task or its continuation is attached to a parent that also waits or branches.</summary>
        Attached,

        /// <summary>An await of what is no task.</summary>
        Await,

        /// <summary>A lambda that touches tasks is handed to code that isn't followed.</summary>
        Callback,

        /// <summary>A captured task is assigned in more than one body.</summary>
        Captured,

        /// <summary>A task is made by new and started later.</summary>
        ColdTask,

        /// <summary>A continuation of a task that isn't followed.</summary>
        Continuation,

        /// <summary>A task runs a delegate that isn't known.</summary>
        Delegate,

        /// <summary>Calls are nested too deeply.</summary>
        Depth,

        /// <summary>An instruction of IL that isn't read.</summary>
        Instruction,

        /// <summary>A join of what can't be joined.</summary>
        Join,

        /// <summary>A continuation looks at its antecedent and is made only after another step.</summary>
        Late,

        /// <summary>Tasks whose number isn't known.</summary>
        List,

        /// <summary>A loop without a bound that does more than jobs.</summary>
        Loop,

        /// <summary>Options that aren't known.</summary>
        Options,

        /// <summary>The outer task of an async body, without Unwrap.</summary>
        Outer,

        /// <summary>A body of Parallel that touches tasks.</summary>
        Parallel,

        /// <summary>Paths that meet in a way for which a document has no words.</summary>
        Paths,

        /// <summary>A callback of a token that touches tasks.</summary>
        Register,

        /// <summary>Too many steps, tasks or conditions.</summary>
        Size,

        /// <summary>A call of a task that isn't read.</summary>
        Task,

        /// <summary>A token or source that isn't known.</summary>
        Token,

        /// <summary>An Unwrap of a task that isn't followed.</summary>
        Unwrap,

        /// <summary>A wait with a time or a token for the task that a body continues.</summary>
        Wait,

        /// <summary>The winner of a WhenAny where it matters which task it is.</summary>
        Winner,
    }
}
