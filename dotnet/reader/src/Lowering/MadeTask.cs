using System.Threading.Tasks;

namespace TaskGraph.Reading
{
    /// <summary>What a task of a path has become.</summary>
    internal sealed class MadeTask
    {
        /// <summary>The task of the document that ends as it does.</summary>
        public DocumentTask Task { get; set; }

        /// <summary>Where control arrives that makes it.</summary>
        public Signal Reach { get; set; }

        /// <summary>The place in the code that makes it.</summary>
        public string Site { get; set; }
    }
}
