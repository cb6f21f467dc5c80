using System;

namespace Xunit
{
    /// <summary>What the samples use of xunit, so that they compile here.</summary>
    [AttributeUsage(AttributeTargets.Method)]
    internal sealed class FactAttribute : Attribute
    {
    }

    [AttributeUsage(AttributeTargets.Method)]
    internal sealed class TheoryAttribute : Attribute
    {
    }

    [AttributeUsage(AttributeTargets.Method)]
    internal sealed class MemberDataAttribute : Attribute
    {
        internal MemberDataAttribute(string member)
        {
            Member = member;
        }

        internal string Member { get; }
    }

    internal static class Assert
    {
        internal static void True(bool value, string otherwise = "true was expected")
        {
            Demand(value, otherwise);
        }

        internal static void Equal<T>(T expected, T found)
        {
            Demand(Equals(expected, found), expected + " was expected: " + found);
        }

        internal static void StartsWith(string expected, string text)
        {
            Demand(text.StartsWith(expected, StringComparison.Ordinal), "no beginning " + expected + ": " + text);
        }

        internal static void Contains(string expected, string text)
        {
            Demand(text.Contains(expected), "no " + expected + ": " + text);
        }

        internal static T Throws<T>(Action action)
            where T : Exception
        {
            try
            {
                action();
            }
            catch (T thrown)
            {
                return thrown;
            }
            throw new InvalidOperationException("nothing was thrown");
        }

        private static void Demand(bool value, string otherwise)
        {
            if (!value)
            {
                throw new InvalidOperationException(otherwise);
            }
        }
    }
}
