namespace TaskGraph.Reading
{
    /// <summary>A CancellationToken.</summary>
    internal sealed class TokenValue : Value
    {
        public TokenValue(PathToken token)
        {
            Token = token;
        }

        /// <summary>The token; null for CancellationToken.None.</summary>
        public PathToken Token { get; }

        public override string Key => "tok" + (Token == null ? "-" : Token.Id.ToString());
    }
}
