using System;
using System.Collections.Generic;
using System.Linq;

namespace TaskGraph.Reading
{
    /// <summary>The words of a call of the command.</summary>
    internal sealed class CommandWords
    {
        /// <summary>What --help says.</summary>
        public const string Usage = @"usage: taskgraph-csharp ASSEMBLY TYPE.METHOD [OPTION..]    the document of a method
           taskgraph-csharp ASSEMBLY --list                   the methods that touch tasks or tokens

      --safe JOB,..      these jobs throw nothing; each other one may
      --job METHOD,..    these methods are jobs: don't look inside
      --may-cancel       an async job that gets no token may end Canceled all the same
      --caller           a last task, Caller, reads the exception of the method
      --claims FILE      put the claims of this file, a list in JSON, into the document
      --verify           ask the program taskgraph, which the environment variable TASKGRAPH names,
                         and print its verdicts with the lines of the code
      --no-notes         leave out the notes

    Of several methods with one name, TYPE.METHOD/2 is the one with two parameters.
    Exit status: 0 for yes, 1 where a claim doesn't hold, 2 for wrong words, 3 for what can't be read.";

        private readonly Dictionary<string, Action<string>> withValue;
        private readonly Dictionary<string, Action> plain;

        private CommandWords()
        {
            withValue = new Dictionary<string, Action<string>>
            {
                { "--safe", it => Settings.Safe.UnionWith(it.Split(',')) },
                { "--job", it => Settings.Jobs.UnionWith(it.Split(',')) },
                { "--claims", it => Claims = it },
            };
            plain = new Dictionary<string, Action>
            {
                { "--may-cancel", () => Settings.MayCancel = true },
                { "--caller", () => Settings.HasCaller = true },
                { "--verify", () => IsVerified = true },
                { "--no-notes", () => HasNotes = false },
                { "--list", () => IsList = true },
                { "--help", () => IsHelp = true },
            };
        }

        public string Assembly { get; private set; }

        public string Method { get; private set; }

        public ReadSettings Settings { get; } = new ReadSettings();

        /// <summary>The file of the claims; null for none.</summary>
        public string Claims { get; private set; }

        public bool IsVerified { get; private set; }

        public bool IsList { get; private set; }

        public bool IsHelp { get; private set; }

        public bool HasNotes { get; private set; } = true;

        /// <exception cref="WrongWordsException">The words mean nothing.</exception>
        public static CommandWords Of(IReadOnlyList<string> words)
        {
            var read = new CommandWords();
            for (int at = 0; at < words.Count; at++)
            {
                at += read.Take(words[at], at + 1 < words.Count ? words[at + 1] : null);
            }
            if (!read.IsHelp && (read.Assembly == null || (read.Method == null) != read.IsList))
            {
                throw new WrongWordsException(Usage);
            }
            return read;
        }

        /// <summary>Takes a word, and gives how many further words belong to it.</summary>
        private int Take(string word, string next)
        {
            string[] parts = word.Split(new[] { '=' }, 2);
            if (plain.TryGetValue(word, out Action set))
            {
                set();
                return 0;
            }
            if (withValue.TryGetValue(parts[0], out Action<string> take))
            {
                string value = parts.Length > 1 ? parts[1] : next;
                take(value ?? throw new WrongWordsException(word + " needs a value\n" + Usage));
                return parts.Length > 1 ? 0 : 1;
            }
            TakeName(word);
            return 0;
        }

        private void TakeName(string word)
        {
            if (word.StartsWith("-", StringComparison.Ordinal) || Method != null)
            {
                throw new WrongWordsException("what is " + word + "?\n" + Usage);
            }
            Method = Assembly == null ? null : word;
            Assembly = Assembly ?? word;
        }
    }
}
