using System;
using System.Collections.Generic;
using System.Linq;
using Mono.Cecil;

namespace TaskGraph.Reading.Tests
{
    /// <summary>Reads many methods of an assembly at once, a line of JSON for each.</summary>
    internal static class Reading
    {
        private const string Safe = "--safe=", Jobs = "--job=";

        /// <param name="words">The assembly, a type, words as the command has them, and the methods; all of the type, if none
        /// is named.</param>
        public static void Write(string[] words)
        {
            var settings = new ReadSettings();
            settings.Safe.UnionWith(ListOf(words, Safe));
            settings.Jobs.UnionWith(ListOf(words, Jobs));
            settings.MayCancel = words.Contains("--may-cancel");
            string[] names = words.Skip(2).Where(it => !it.StartsWith("--", StringComparison.Ordinal)).ToArray();
            var reader = new MethodReader(settings, new MarkerLowering());
            var assembly = new TeamAssembly(words[0]);
            IEnumerable<MethodDefinition> methods = names.Length == 0
                ? assembly.WithTasks().Where(it => it.DeclaringType.Name == words[1])
                : names.Select(it => assembly.One(words[1] + "." + it));
            foreach (MethodDefinition method in methods)
            {
                Console.WriteLine(Line(reader, method));
            }
        }

        private static string[] ListOf(string[] words, string beginning) =>
            words.Where(it => it.StartsWith(beginning, StringComparison.Ordinal)).SelectMany(it => it.Substring(beginning.Length).Split(',')).ToArray();

        private static string Line(MethodReader reader, MethodDefinition method)
        {
            string name = JsonText.Member("method", JsonText.Of(method.Name));
            try
            {
                ReadResult result = reader.Read(method);
                string ends = JsonText.Member("ends", result.Document.Ends == null ? "null" : JsonText.Of(result.Document.Ends));
                string used = JsonText.Member("used", JsonText.Names(result.Assumptions.Select(it => it.ToString())));
                string document = JsonText.Member("document", result.ToJson(hasNotes: false).Replace("\n", " "));
                return JsonText.Object(new[] { name, ends, used, document });
            }
            catch (ReadException refused)
            {
                string code = JsonText.Member("refused", JsonText.Of(Refusals.WordOf(refused.Code)));
                return JsonText.Object(new[] { name, code, JsonText.Member("message", JsonText.Of(refused.Message)) });
            }
        }
    }
}
