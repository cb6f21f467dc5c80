namespace TaskGraph.Reading
{
    /// <summary>A value of which only its meaning matters.</summary>
    internal sealed class Mark : Value
    {
        public Mark(MarkKind kind, Value about = null, string detail = "")
        {
            Kind = kind;
            About = about;
            Detail = detail;
        }

        public MarkKind Kind { get; }

        public Value About { get; }

        public string Detail { get; }

        public override string Key => "m" + Kind + Detail + About?.Key;

        public override bool? Truth => null;

        public static Mark EndsAs(Final final) => new Mark(MarkKind.EndsAs, detail: final.ToString());

        public static Mark Not(Value about) => new Mark(MarkKind.Not, about);

        /// <summary>The opposite where a value is a condition: the same where it is wanted as it is.</summary>
        public static Value If(Value condition, bool wanted) => wanted ? condition : Not(condition);
    }
}
