namespace TaskGraph.Reading
{
    /// <summary>A string or a floating number that is known.</summary>
    internal sealed class TextValue : Value
    {
        public TextValue(string text)
        {
            Text = text;
        }

        public string Text { get; }

        public override string Key => "s" + Text;
    }
}
