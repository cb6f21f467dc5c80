namespace TaskGraph
{
    /// <summary>What the program answered.</summary>
    public sealed class ProgramAnswer
    {
        internal ProgramAnswer(int exitCode, string output, string error)
        {
            ExitCode = exitCode;
            Output = output;
            Error = error;
        }

        /// <summary>The exit status: 0 for yes, 1 for no, 3 for what can't be read.</summary>
        public int ExitCode { get; }

        /// <summary>What stands on standard output.</summary>
        public string Output { get; }

        /// <summary>What stands on standard error: with --explain the reasons.</summary>
        public string Error { get; }
    }
}
