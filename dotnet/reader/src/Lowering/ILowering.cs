namespace TaskGraph.Reading
{
    /// <summary>Makes a document of the paths through a method. Another version of documents needs another lowering, and
    /// nothing else.</summary>
    internal interface ILowering
    {
        /// <exception cref="ReadException">The paths meet in a way for which a document has no words.</exception>
        ReadDocument Lower(MethodPaths paths, ReadSettings settings, Notes notes);
    }
}
