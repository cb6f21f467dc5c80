namespace TaskGraph.Reading
{
    /// <summary>What some calls do to a path.</summary>
    internal interface ICallRule
    {
        /// <summary>Runs the call, if the rule is about it. The next node is null where the path goes on by itself.</summary>
        bool TryRun(Call call, out PathNode next);
    }
}
