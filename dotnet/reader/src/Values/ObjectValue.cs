namespace TaskGraph.Reading
{
    /// <summary>An object that is followed: a closure, a state machine, a list, or the team's own object.</summary>
    internal sealed class ObjectValue : Value
    {
        public ObjectValue(int id)
        {
            Id = id;
        }

        public int Id { get; }

        public override string Key => "o" + Id;
    }
}
