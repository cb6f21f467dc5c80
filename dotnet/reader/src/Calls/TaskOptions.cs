using System.Collections.Generic;
using System.Linq;

namespace TaskGraph.Reading
{
    /// <summary>The options of a task by their numbers.</summary>
    internal static class TaskOptions
    {
        private const long LazyCancellation = 32;
        private const long ExecuteSynchronously = 0x80000;
        private const long NotOnRanToCompletion = 0x10000;
        private const long NotOnFaulted = 0x20000;
        private const long NotOnCanceled = 0x40000;

        private static readonly KeyValuePair<long, string>[] Creation =
        {
            Named(1, "PreferFairness"), Named(2, "LongRunning"), Named(4, "AttachedToParent"), Named(8, "DenyChildAttach"),
            Named(16, "HideScheduler"), Named(64, "RunContinuationsAsynchronously"),
        };

        private static readonly KeyValuePair<long, string>[] Continuation =
        {
            Named(LazyCancellation, "LazyCancellation"), Named(ExecuteSynchronously, "ExecuteSynchronously"),
        };

        private static readonly Dictionary<long, string[]> Filters = new Dictionary<long, string[]>
        {
            { NotOnFaulted | NotOnCanceled, new[] { ContinuationFilter.OnlyOnRanToCompletion } },
            { NotOnRanToCompletion | NotOnCanceled, new[] { ContinuationFilter.OnlyOnFaulted } },
            { NotOnRanToCompletion | NotOnFaulted, new[] { ContinuationFilter.OnlyOnCanceled } },
        };

        /// <summary>The words of a number.</summary>
        /// <exception cref="ReadException">The number isn't known.</exception>
        public static List<string> Of(Call call, Value value, bool isContinuation)
        {
            if (!(value is Number number))
            {
                throw call.Refuse(RefusalCode.Options, "options that aren't known");
            }
            long bits = number.Amount;
            IEnumerable<string> words = Words(bits, Creation);
            return (isContinuation ? words.Concat(Words(bits, Continuation)).Concat(FiltersOf(bits)) : words).ToList();
        }

        private static IEnumerable<string> FiltersOf(long bits)
        {
            long filters = bits & (NotOnRanToCompletion | NotOnFaulted | NotOnCanceled);
            return Filters.TryGetValue(filters, out string[] only) ? only : Words(
                bits,
                Named(NotOnRanToCompletion, ContinuationFilter.NotOnRanToCompletion),
                Named(NotOnFaulted, ContinuationFilter.NotOnFaulted),
                Named(NotOnCanceled, ContinuationFilter.NotOnCanceled));
        }

        private static IEnumerable<string> Words(long bits, params KeyValuePair<long, string>[] named) =>
            named.Where(it => (bits & it.Key) != 0).Select(it => it.Value);

        private static KeyValuePair<long, string> Named(long bit, string word) => new KeyValuePair<long, string>(bit, word);
    }
}
