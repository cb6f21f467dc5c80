namespace TaskGraph.Reading
{
    /// <summary>The address of a variable of a frame, or of a field.</summary>
    internal sealed class Address : Value
    {
        private Address()
        {
        }

        public int Frame { get; private set; }

        public int Index { get; private set; }

        public bool IsArgument { get; private set; }

        /// <summary>The object whose field it is; null for a variable.</summary>
        public Value Owner { get; private set; }

        public string Field { get; private set; }

        public override string Key =>
            Owner != null ? "&" + Owner.Key + "." + Field : "&" + Frame + (IsArgument ? "a" : "l") + Index;

        public static Address OfLocal(int frame, int index) => new Address { Frame = frame, Index = index };

        public static Address OfArgument(int frame, int index) => new Address { Frame = frame, Index = index, IsArgument = true };

        public static Address OfField(Value owner, string field) => new Address { Owner = owner, Field = field, Index = -1 };
    }
}
