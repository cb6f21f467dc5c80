using System;
using System.Linq;
using System.Text;

namespace TaskGraph.Internals
{
    /// <summary>The names of tasks, tokens, inputs, jobs and exceptions, as documents have them.</summary>
    internal static class Name
    {
        private const int Longest = 32;
        private const int MostBytesOfClaim = 100;

        /// <summary>Gives the name back.</summary>
        /// <exception cref="ArgumentException">It isn't 1 to 32 ASCII letters, digits or '_', or begins with a digit.</exception>
        internal static string Checked(string name)
        {
            if (!IsName(name))
            {
                throw new ArgumentException(
                    "a name is 1 to 32 ASCII letters, digits or '_', and doesn't begin with a digit; give another one than '" + name + "'");
            }
            return name;
        }

        /// <summary>Gives the name of a claim back.</summary>
        /// <exception cref="ArgumentException">It isn't 1 to 100 bytes of text without control characters.</exception>
        internal static string CheckedOfClaim(string name)
        {
            int bytes = name == null ? 0 : Encoding.UTF8.GetByteCount(name);
            if (bytes == 0 || bytes > MostBytesOfClaim || name.Any(char.IsControl))
            {
                throw new ArgumentException(
                    "the name of a claim is 1 to 100 bytes of text without control characters; say what is longer by WithNote");
            }
            return name;
        }

        private static bool IsName(string name)
        {
            if (string.IsNullOrEmpty(name) || name.Length > Longest || IsDigit(name[0]))
            {
                return false;
            }
            foreach (char it in name)
            {
                if (!IsDigit(it) && !IsLetter(it) && it != '_')
                {
                    return false;
                }
            }
            return true;
        }

        private static bool IsDigit(char it) => it >= '0' && it <= '9';

        private static bool IsLetter(char it) => (it >= 'a' && it <= 'z') || (it >= 'A' && it <= 'Z');
    }
}
