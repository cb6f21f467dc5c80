using System;
using System.IO;
using System.Linq;
using System.Threading;

namespace TaskGraph.Reading
{
    /// <summary>The command taskgraph-csharp.</summary>
    internal static class Program
    {
        private const int Yes = 0, WrongWords = 2, Unreadable = 3;

        private static int Main(string[] words)
        {
            try
            {
                return Run(CommandWords.Of(words));
            }
            catch (WrongWordsException thrown)
            {
                return Say(thrown.Message, WrongWords);
            }
            catch (ReadException thrown)
            {
                return Say("refused: " + thrown.Message, Unreadable);
            }
            catch (Exception thrown) when (IsOfOutside(thrown))
            {
                return Say(thrown.Message, Unreadable);
            }
        }

        private static bool IsOfOutside(Exception thrown) =>
            thrown is IOException || thrown is BadImageFormatException || thrown is InvalidOperationException || thrown is ArgumentException;

        private static int Say(string what, int status)
        {
            Console.Error.WriteLine(what);
            return status;
        }

        private static int Run(CommandWords words)
        {
            if (words.IsHelp)
            {
                Console.WriteLine(CommandWords.Usage);
                return Yes;
            }
            var assembly = new TeamAssembly(words.Assembly);
            return words.IsList ? List(assembly) : Read(assembly, words);
        }

        private static int List(TeamAssembly assembly)
        {
            foreach (string method in assembly.WithTasks().Select(it => it.DeclaringType.FullName.Replace('/', '.') + "." + it.Name))
            {
                Console.WriteLine(method);
            }
            return Yes;
        }

        private static int Read(TeamAssembly assembly, CommandWords words)
        {
            ReadResult result = new MethodReader(words.Settings, new MarkerLowering()).Read(assembly.One(words.Method));
            foreach (string line in result.Lines)
            {
                Console.Error.WriteLine("note: " + line);
            }
            string claims = words.Claims == null ? null : File.ReadAllText(words.Claims).Trim();
            string document = result.ToJson(words.HasNotes, claims);
            if (words.IsVerified)
            {
                return Verify(result, document);
            }
            Console.WriteLine(document);
            return Yes;
        }

        private static int Verify(ReadResult result, string document)
        {
            ProgramCall answer = ProgramCall.Of("verify", document, Timeout.InfiniteTimeSpan, CancellationToken.None);
            Console.Write(new SourceLines(result.Document).Beside(answer.Output));
            Console.Error.Write(answer.Error);
            return answer.Status;
        }
    }
}
