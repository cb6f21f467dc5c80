using System;
using System.Collections.Generic;
using System.IO;
using System.Linq;
using System.Runtime.InteropServices;

namespace TaskGraph
{
    /// <summary>Where the program taskgraph lies: the environment variable TASKGRAPH names it, or it is on the path, or the package
    /// has brought one for this system.</summary>
    internal sealed class ProgramPlace
    {
        private const string Variable = "TASKGRAPH";
        private const string Name = "taskgraph";

        private ProgramPlace(string[] words, string found)
        {
            Words = words;
            Found = found;
        }

        /// <summary>The file, and the words that stand before those of a call.</summary>
        internal string[] Words { get; }

        /// <summary>How it was found.</summary>
        internal string Found { get; }

        /// <exception cref="InvalidOperationException">There is none, with the places where it was looked for.</exception>
        internal static ProgramPlace Find()
        {
            string named = Environment.GetEnvironmentVariable(Variable);
            if (!string.IsNullOrWhiteSpace(named))
            {
                return new ProgramPlace(WordsOf(named), "which the environment variable " + Variable + " names");
            }
            string onPath = OnPath().FirstOrDefault(File.Exists);
            if (onPath != null)
            {
                return new ProgramPlace(new[] { onPath }, "which is on the path");
            }
            string brought = Brought().FirstOrDefault(File.Exists);
            if (brought != null)
            {
                return new ProgramPlace(new[] { brought }, "which the package has brought");
            }
            throw new InvalidOperationException(
                "the environment variable " + Variable + " isn't set, no program " + FileName + " is on the path, and the package has none for "
                + (Runtime() ?? "this system") + "; set " + Variable + " to the program's path");
        }

        private static string FileName => RuntimeInformation.IsOSPlatform(OSPlatform.Windows) ? Name + ".exe" : Name;

        private static string[] WordsOf(string named)
        {
            return File.Exists(named) ? new[] { named } : named.Split(new[] { ' ' }, StringSplitOptions.RemoveEmptyEntries);
        }

        private static IEnumerable<string> OnPath()
        {
            string path = Environment.GetEnvironmentVariable("PATH") ?? "";
            return path.Split(Path.PathSeparator).Where(it => it.Length > 0).Select(it => Path.Combine(it.Trim('"'), FileName));
        }

        /// <summary>The places beside the compiled project where the package's programs are put: by the system's name, or alone where
        /// the project is published for one system.</summary>
        private static IEnumerable<string> Brought()
        {
            string runtime = Runtime();
            if (runtime != null)
            {
                yield return Path.Combine(AppDomain.CurrentDomain.BaseDirectory, "runtimes", runtime, "native", FileName);
                yield return Path.Combine(AppDomain.CurrentDomain.BaseDirectory, FileName);
            }
        }

        /// <summary>The system as NuGet names it, or null where there is no program for it.</summary>
        private static string Runtime()
        {
            Architecture processor = RuntimeInformation.OSArchitecture;
            if (RuntimeInformation.IsOSPlatform(OSPlatform.Windows))
            {
                // Windows for arm64 runs programs for x64
                return processor == Architecture.X64 || processor == Architecture.Arm64 ? "win-x64" : null;
            }
            if (!RuntimeInformation.IsOSPlatform(OSPlatform.Linux))
            {
                return null;
            }
            return processor == Architecture.X64 ? "linux-x64" : processor == Architecture.Arm64 ? "linux-arm64" : null;
        }
    }
}
