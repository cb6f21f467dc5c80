using System;
using System.Collections.Generic;
using System.IO;
using System.Linq;
using System.Reflection;
using Sample;
using Xunit;

namespace TaskGraph.Tests
{
    /// <summary>Runs the facts of the samples, as a test runner does.</summary>
    internal static class Facts
    {
        internal static void Write(TextWriter to)
        {
            foreach (Type type in Assembly.GetExecutingAssembly().GetTypes().OrderBy(it => it.FullName))
            {
                foreach (MethodInfo fact in type.GetMethods().Where(it => it.IsDefined(typeof(FactAttribute), false)))
                {
                    to.WriteLine(type.Name + "." + fact.Name + "\t" + Answer(type, fact, null));
                }
                foreach (MethodInfo theory in type.GetMethods().Where(it => it.IsDefined(typeof(TheoryAttribute), false)))
                {
                    WriteCases(to, type, theory);
                }
            }
        }

        /// <summary>A theory is one test for each row of its data.</summary>
        private static void WriteCases(TextWriter to, Type type, MethodInfo theory)
        {
            string member = ((MemberDataAttribute)theory.GetCustomAttributes(typeof(MemberDataAttribute), false).Single()).Member;
            foreach (object[] row in (IEnumerable<object[]>)type.GetMethod(member).Invoke(null, null))
            {
                to.WriteLine(type.Name + "." + theory.Name + " of " + row[0] + "\t" + Answer(type, theory, row));
            }
        }

        /// <summary>What is said of the first release, which the page docs/DOTNET.md shows.</summary>
        internal static void WriteFirstAnswer(TextWriter to)
        {
            to.Write(Assert.Throws<TaskGraphException>(() => new Release().Graph().Verify()).Message);
        }

        private static string Answer(Type type, MethodInfo fact, object[] row)
        {
            try
            {
                fact.Invoke(Activator.CreateInstance(type), row);
                return "passed";
            }
            catch (TargetInvocationException thrown)
            {
                return thrown.InnerException.Message.Replace("\n", " | ");
            }
        }
    }
}
