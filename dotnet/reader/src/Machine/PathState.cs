using System.Collections.Generic;
using System.Linq;

namespace TaskGraph.Reading
{
    /// <summary>Where one path stands: its calls, its objects, and what it takes for granted.</summary>
    internal sealed class PathState
    {
        public PathState()
        {
        }

        private PathState(PathState other)
        {
            Frames.AddRange(other.Frames.Select(it => it.Clone()));
            Heap = CopyOf(other.Heap);
            Assumed = new Dictionary<string, bool>(other.Assumed);
            Known = new Dictionary<int, Final>(other.Known);
            Counts = new Dictionary<string, int>(other.Counts);
            Branches = new Dictionary<string, int>(other.Branches);
            Subject = other.Subject;
            SubjectOptions = other.SubjectOptions;
            OwnToken = other.OwnToken;
            IsAsync = other.IsAsync;
            Thrown = other.Thrown;
        }

        public List<Frame> Frames { get; } = new List<Frame>();

        public Dictionary<int, HeapObject> Heap { get; set; } = new Dictionary<int, HeapObject>();

        /// <summary>The answers that the path has taken, by what was asked.</summary>
        public Dictionary<string, bool> Assumed { get; } = new Dictionary<string, bool>();

        /// <summary>How tasks ended that were waited for, by their numbers.</summary>
        public Dictionary<int, Final> Known { get; } = new Dictionary<int, Final>();

        /// <summary>How often each place was met.</summary>
        public Dictionary<string, int> Counts { get; } = new Dictionary<string, int>();

        /// <summary>How often each branch on what isn't known was met.</summary>
        public Dictionary<string, int> Branches { get; } = new Dictionary<string, int>();

        /// <summary>The task that this body continues; null for none.</summary>
        public PathTask Subject { get; set; }

        /// <summary>The options of the continuation whose body this is.</summary>
        public IReadOnlyList<string> SubjectOptions { get; set; } = new List<string>();

        /// <summary>The token that was handed to the task whose body this is.</summary>
        public PathToken OwnToken { get; set; }

        /// <summary>Whether the body's task ends Canceled by any OperationCanceledException.</summary>
        public bool IsAsync { get; set; }

        /// <summary>What has left the last frame; null where nothing has.</summary>
        public ThrownValue Thrown { get; set; }

        public Frame Top => Frames[Frames.Count - 1];

        public bool HasEnded => Frames.Count == 0;

        public string Where => Symbols.Where(Top.Method, Top.At);

        public PathState Clone() => new PathState(this);

        public static Dictionary<int, HeapObject> CopyOf(Dictionary<int, HeapObject> heap) =>
            heap.ToDictionary(it => it.Key, it => it.Value.Clone());

        public void DropTop() => Frames.RemoveAt(Frames.Count - 1);

        /// <summary>The object, if a value is one that is followed.</summary>
        public HeapObject Find(Value value) => value is ObjectValue it ? Heap[it.Id] : null;

        /// <summary>The items, if a value is a list or an array that is followed; null otherwise.</summary>
        public List<Value> ItemsOf(Value value) => Find(value)?.Items;

        public ReadException Refuse(RefusalCode code, string what) => new ReadException(code, Where, what);
    }
}
