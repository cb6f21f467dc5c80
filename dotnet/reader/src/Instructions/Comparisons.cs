using System;
using System.Collections.Generic;
using System.Threading.Tasks;

namespace TaskGraph.Reading
{
    /// <summary>Compares values. The same values compared in the same way give the same answer.</summary>
    internal sealed class Comparisons
    {
        public const string Equal = "eq";
        public const string Unequal = "ne";
        public const string Less = "lt";
        public const string Greater = "gt";
        private const string AtMost = "le";
        private const string AtLeast = "ge";

        // the numbers of TaskStatus
        private static readonly Dictionary<long, Final> Statuses = new Dictionary<long, Final>
        {
            { (long)TaskStatus.RanToCompletion, Final.RanToCompletion },
            { (long)TaskStatus.Canceled, Final.Canceled },
            { (long)TaskStatus.Faulted, Final.Faulted },
        };

        private readonly Machine machine;

        public Comparisons(Machine machine)
        {
            this.machine = machine;
        }

        public Value Compare(PathState state, string operation, Value one, Value other)
        {
            if (one is Number first && other is Number second)
            {
                return Number.Of(OfNumbers(operation, first.Amount, second.Amount));
            }
            if (one is WinnerIndex index && other is Number bound && IsSameForAll(operation, index, bound.Amount))
            {
                return Number.Of(OfNumbers(operation, 0, bound.Amount));
            }
            bool isEqual = operation == Equal;
            Value known = isEqual || operation == Unequal
                ? OfMarks(isEqual, one as Mark ?? other as Mark, one is Mark ? other : one) ?? OfFlags(isEqual, one, other) ?? OfKeys(isEqual, one, other)
                : null;
            if (known != null)
            {
                return known;
            }
            if (IsWinner(one) || IsWinner(other))
            {
                machine.Notes.Add(Assumption.Winner, state.Where);
            }
            return new Unknown("(" + one.Key + operation + other.Key + ")", NameOf(operation, one, other), null);
        }

        private static bool OfNumbers(string operation, long one, long other)
        {
            switch (operation)
            {
                case Equal:
                    return one == other;
                case Unequal:
                    return one != other;
                case AtLeast:
                    return one >= other;
                case Greater:
                    return one > other;
                case AtMost:
                    return one <= other;
                default:
                    return one < other;
            }
        }

        /// <summary>A status against a number, and a condition against 0 or 1.</summary>
        private static Value OfMarks(bool isEqual, Mark mark, Value other)
        {
            if (mark == null || !(other is Number number))
            {
                return null;
            }
            if (mark.Kind == MarkKind.Status && Statuses.TryGetValue(number.Amount, out Final final))
            {
                return Mark.If(Mark.EndsAs(final), isEqual);
            }
            bool isCondition = mark.Kind == MarkKind.EndsAs || mark.Kind == MarkKind.Not;
            return isCondition ? Mark.If(mark, (number.Amount != 0) == isEqual) : null;
        }

        /// <summary>A bool that isn't known against false.</summary>
        private static Value OfFlags(bool isEqual, Value one, Value other)
        {
            Unknown flag = one as Unknown ?? other as Unknown;
            bool isFalse = (one is Unknown ? other : one) is Number number && number.Amount == 0;
            bool isFlag = flag != null && (flag.Type == null || Types.IsBool(flag.Type));
            return isFalse && isFlag ? Mark.If(flag, !isEqual) : null;
        }

        private static Value OfKeys(bool isEqual, Value one, Value other)
        {
            if (IsPlain(one) && IsPlain(other))
            {
                return Number.Of((one.Key == other.Key) == isEqual);
            }
            if (one is Unknown first && other is Unknown second && first.Id == second.Id)
            {
                return Number.Of(isEqual);
            }
            return one is Unknown made && other is NullValue && Outside.IsMade(made) ? Number.Of(!isEqual) : null;
        }

        private static bool IsPlain(Value value) => !(value is Unknown || value is Mark || IsWinner(value));

        private static bool IsWinner(Value value) => value is WinnerValue || value is WinnerIndex;

        /// <summary>Whether a comparison has the same answer whichever task won.</summary>
        private static bool IsSameForAll(string operation, WinnerIndex index, long bound)
        {
            long last = index.Any.Of.Count - 1;
            bool isOfOrder = operation != Equal && operation != Unequal;
            return isOfOrder
                ? OfNumbers(operation, 0, bound) == OfNumbers(operation, last, bound)
                : bound < 0 || bound > last || last == 0;
        }

        private static string NameOf(string operation, Value one, Value other)
        {
            string name = (one as Unknown ?? other as Unknown)?.Name ?? (IsWinner(one) || IsWinner(other)
                ? "winner"
                : "x");
            Value against = one is Unknown || IsWinner(one) ? other : one;
            string end = against is Number number ? "_" + number.Amount : against is TextValue text ? "_" + text.Text : against is NullValue ? "_null" : "";
            return Naming.Identifier(name + "_" + operation + end);
        }
    }
}
