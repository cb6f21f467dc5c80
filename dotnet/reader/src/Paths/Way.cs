namespace TaskGraph.Reading
{
    /// <summary>The way on from a node of a path.</summary>
    internal enum Way
    {
        // in this order the ways of a node are walked
        Cancel,
        Fault,
        No,
        Ok,
        Yes,
    }
}
