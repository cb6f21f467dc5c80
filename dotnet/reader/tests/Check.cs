using System;
using System.Collections.Generic;
using System.Linq;

namespace TaskGraph.Reading.Tests
{
    /// <summary>What a test demands.</summary>
    internal static class Check
    {
        public static void Equal<T>(T expected, T found)
        {
            if (!Equals(expected, found))
            {
                throw new InvalidOperationException("expected " + expected + ", not " + found);
            }
        }

        public static void Sequence<T>(IEnumerable<T> found, params T[] expected)
        {
            Equal(string.Join("; ", expected), string.Join("; ", found));
        }

        public static TException Throws<TException>(Action act)
            where TException : Exception
        {
            try
            {
                act();
            }
            catch (TException thrown)
            {
                return thrown;
            }
            throw new InvalidOperationException("no " + typeof(TException).Name + " was thrown");
        }
    }
}
