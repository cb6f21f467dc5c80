
namespace TaskGraph.Internals
{
    /// <summary>The line of C# that declares a task.</summary>
    internal static class SourceLine
    {
        private static readonly char[] Separators = { '/', '\\' };

        /// <summary>The file's name without its folders, which differ from machine to machine, and the line; null where they aren't known.</summary>
        internal static string Of(string file, int line)
        {
            return string.IsNullOrEmpty(file) ? null : file.Substring(file.LastIndexOfAny(Separators) + 1) + ":" + line;
        }
    }
}
