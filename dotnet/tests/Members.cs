using System;
using System.IO;
using System.Linq;
using System.Reflection;

namespace TaskGraph.Tests
{
    /// <summary>How many public members each public type of the library has, as docs/API.md has to.</summary>
    internal static class Members
    {
        private const BindingFlags Own = BindingFlags.Public | BindingFlags.Instance | BindingFlags.Static | BindingFlags.DeclaredOnly;
        private const string Operator = "op_";

        internal static void Write(TextWriter to)
        {
            foreach (Type type in Assembly.GetExecutingAssembly().GetExportedTypes().Where(it => it.Namespace == "TaskGraph"))
            {
                to.WriteLine(type.Name + "\t" + type.GetMembers(Own).Count(it => IsShown(type, it)));
            }
        }

        private static bool IsShown(Type type, MemberInfo member)
        {
            var method = member as MethodInfo;
            bool isAccessor = method != null && method.IsSpecialName && !method.Name.StartsWith(Operator, StringComparison.Ordinal);
            return !isAccessor && (!type.IsEnum || member is FieldInfo it && it.IsStatic);
        }
    }
}
