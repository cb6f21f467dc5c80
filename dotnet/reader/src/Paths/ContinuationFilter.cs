using System;

namespace TaskGraph.Reading
{
    /// <summary>The options of a continuation by which it is left out.</summary>
    internal static class ContinuationFilter
    {
        public const string OnlyOnRanToCompletion = "OnlyOnRanToCompletion";
        public const string OnlyOnFaulted = "OnlyOnFaulted";
        public const string OnlyOnCanceled = "OnlyOnCanceled";
        public const string NotOnRanToCompletion = "NotOnRanToCompletion";
        public const string NotOnFaulted = "NotOnFaulted";
        public const string NotOnCanceled = "NotOnCanceled";

        public static bool IsFilter(string option) =>
            option.StartsWith("OnlyOn", StringComparison.Ordinal) || option.StartsWith("NotOn", StringComparison.Ordinal);
    }
}
