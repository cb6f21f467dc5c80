namespace TaskGraph.Reading
{
    /// <summary>What stands in a variable, in a field or on the stack on one path. Values never change.</summary>
    internal abstract class Value
    {
        /// <summary>The text by which values are compared: equal texts are equal values.</summary>
        public abstract string Key { get; }

        /// <summary>Whether a branch on this value is taken; null where that isn't known.</summary>
        public virtual bool? Truth => true;

        /// <summary>Gives the text by which values are compared.</summary>
        public override string ToString() => Key;
    }
}
