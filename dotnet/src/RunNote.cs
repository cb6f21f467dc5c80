namespace TaskGraph
{
    /// <summary>Where the recorder had to choose, or saw what the declaration doesn't say.</summary>
    public sealed class RunNote
    {
        internal RunNote(RunNoteKind kind, string text)
        {
            Kind = kind;
            Text = text;
        }

        /// <summary>What the note is about.</summary>
        public RunNoteKind Kind { get; }

        /// <summary>The note in words.</summary>
        public string Text { get; }

        /// <summary>Gives the kind and the words.</summary>
        public override string ToString() => Kind + ": " + Text;
    }
}
