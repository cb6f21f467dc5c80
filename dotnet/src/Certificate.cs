using System;

namespace TaskGraph.Internals
{
    /// <summary>The certificate of a document that was written with one.</summary>
    internal static class Certificate
    {
        private const string Member = "\"certificate\":";

        /// <summary>The text of the certificate: an array whose texts are names, so that brackets need no look at them.</summary>
        /// <exception cref="ArgumentException">There is none.</exception>
        internal static string Of(string document)
        {
            int start = document.IndexOf(Member, StringComparison.Ordinal) + Member.Length;
            int depth = 0;
            for (int place = start; start >= Member.Length && place < document.Length; place++)
            {
                depth += document[place] == '[' ? 1 : document[place] == ']' ? -1 : 0;
                if (depth == 0 && document[place] == ']')
                {
                    return document.Substring(start, place + 1 - start);
                }
            }
            throw new ArgumentException("the document has no certificate; keep what Certify gives");
        }
    }
}
