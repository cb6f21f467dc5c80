using System;
using System.IO;
using System.Linq;
using System.Reflection;

namespace TaskGraph.Reading.Tests
{
    /// <summary>Runs the tests of the classes, and writes a line for each: its name, and "passed" or what it threw.</summary>
    internal static class Facts
    {
        public static void Write(TextWriter to)
        {
            foreach (Type type in Assembly.GetExecutingAssembly().GetTypes().Where(it => it.Name.EndsWith("Tests", StringComparison.Ordinal)))
            {
                foreach (MethodInfo fact in type.GetMethods(BindingFlags.Public | BindingFlags.Static | BindingFlags.DeclaredOnly))
                {
                    to.WriteLine(type.Name + "." + fact.Name + "\t" + Answer(fact));
                }
            }
        }

        private static string Answer(MethodInfo fact)
        {
            try
            {
                fact.Invoke(null, null);
                return "passed";
            }
            catch (TargetInvocationException thrown)
            {
                return thrown.InnerException.GetType().Name + ": " + thrown.InnerException.Message.Replace("\n", " | ");
            }
        }
    }
}
