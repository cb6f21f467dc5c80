namespace TaskGraph.Reading
{
    /// <summary>A CancellationTokenSource.</summary>
    internal sealed class SourceValue : Value
    {
        public SourceValue(PathToken token)
        {
            Token = token;
        }

        public PathToken Token { get; }

        public override string Key => "cts" + Token.Id;
    }
}
