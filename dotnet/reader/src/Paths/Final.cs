namespace TaskGraph.Reading
{
    /// <summary>How a task ends.</summary>
    internal enum Final
    {
        RanToCompletion,
        Faulted,
        Canceled,
    }
}
