namespace TaskGraph.Reading
{
    /// <summary>What a wait puts on the stack: nothing, the result of the task, or what it says itself.</summary>
    internal sealed class WaitResult
    {
        /// <param name="stands">Whether something is put on the stack.</param>
        /// <param name="said">What the wait says; null where it gives the task's result.</param>
        public WaitResult(bool stands, Value said = null)
        {
            Stands = stands;
            Said = said;
        }

        public bool Stands { get; }

        public Value Said { get; }
    }
}
