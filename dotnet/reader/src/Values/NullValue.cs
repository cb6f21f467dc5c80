namespace TaskGraph.Reading
{
    /// <summary>The null reference, and a struct that nobody has written yet.</summary>
    internal sealed class NullValue : Value
    {
        public override string Key => "null";

        public override bool? Truth => false;
    }
}
