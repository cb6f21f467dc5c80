using System;
using System.Collections.Generic;
using System.IO;
using System.Linq;
using Mono.Cecil;
using Mono.Cecil.Cil;

namespace TaskGraph.Reading
{
    /// <summary>Lines and names of variables: all that is asked of the debugger's files, whichever version of Mono.Cecil
    /// reads them.</summary>
    /// <remarks>Mono.Cecil 0.10 and later read portable PDB files. With CECIL_0_9 this is written for 0.9.5, which Debian
    /// has: it reads
    /// the MDB files that Mono's compiler writes.</remarks>
    internal static class Symbols
    {
        // what compilers give to code that is nobody's line
        private const int FirstHidden = 0xf00000;

        /// <summary>Opens an assembly, with its lines where a file has them.</summary>
        public static ModuleDefinition Open(string file)
        {
            var resolver = new DefaultAssemblyResolver();
            resolver.AddSearchDirectory(Path.GetDirectoryName(Path.GetFullPath(file)));
            var parameters = new ReaderParameters { AssemblyResolver = resolver };
            AskForLines(file, parameters);
            return ModuleDefinition.ReadModule(file, parameters);
        }

        /// <summary>The line of an instruction or of the next one before it, or its offset, and the method as it is
        /// written.</summary>
        public static string Where(MethodDefinition method, int at)
        {
            IList<Instruction> code = method.Body.Instructions;
            int last = Math.Min(at, code.Count - 1);
            string line = null;
            for (int place = last; place >= 0 && line == null; place--)
            {
                line = LineOf(method, code[place]);
            }
            return (line ?? "IL_" + code[last].Offset.ToString("x4")) + " in " + Naming.Written(method);
        }

        /// <summary>The name of a local variable; null where it isn't known.</summary>
        public static string NameOf(MethodDefinition method, int variable)
        {
            VariableDefinition found = method.Body.Variables[variable];
#if CECIL_0_9
            string name = found.Name;
#else
            string name = method.DebugInformation.TryGetName(found, out string known) ? known : null;
#endif
            return string.IsNullOrEmpty(name) ? null : name;
        }

        private static void AskForLines(string file, ReaderParameters parameters)
        {
#if CECIL_0_9
            if (File.Exists(file + ".mdb"))
            {
                parameters.ReadSymbols = true;
                parameters.SymbolReaderProvider = new Mono.Cecil.Mdb.MdbReaderProvider();
            }
#else
            if (File.Exists(Path.ChangeExtension(file, "pdb")))
            {
                parameters.ReadSymbols = true;
                parameters.SymbolReaderProvider = new DefaultSymbolReaderProvider(throwIfNoSymbol: false);
            }
#endif
        }

        private static string LineOf(MethodDefinition method, Instruction instruction)
        {
#if CECIL_0_9
            SequencePoint point = instruction.SequencePoint;
#else
            SequencePoint point = method.DebugInformation.GetSequencePoint(instruction);
#endif
            bool isLine = point != null && point.StartLine < FirstHidden;
            return isLine ? Path.GetFileName(point.Document.Url) + ":" + point.StartLine : null;
        }
    }
}
