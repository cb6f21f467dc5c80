using System;
using System.Collections.Generic;
using System.Linq;
using Mono.Cecil;

namespace TaskGraph.Reading
{
    /// <summary>An assembly of a team.</summary>
    internal sealed class TeamAssembly
    {
        private readonly ModuleDefinition module;

        public TeamAssembly(string file)
        {
            module = Symbols.Open(file);
        }

        /// <summary>The method of a name, behind which the number of its parameters may stand: Release.Start/2.</summary>
        /// <exception cref="ArgumentException">There is none, or several.</exception>
        public MethodDefinition One(string name)
        {
            string[] parts = name.Split('/');
            List<MethodDefinition> found = Find(parts[0]).Where(it => parts.Length == 1 || it.Parameters.Count.ToString() == parts[1]).ToList();
            if (found.Count != 1)
            {
                string what = found.Count == 0 ? "no method " : "several methods ";
                throw new ArgumentException(what + name + " with a body; the names are those of --list, with the number of parameters behind a slash");
            }
            return found[0];
        }

        /// <summary>The methods that touch tasks or tokens, with their types.</summary>
        public IEnumerable<MethodDefinition> WithTasks()
        {
            var uses = new TaskUse();
            return module.GetTypes().Where(it => !Types.IsGenerated(it)).SelectMany(it => it.Methods)
                .Where(it => it.HasBody && !Types.IsGeneratedName(it.Name) && uses.Touches(it));
        }

        /// <summary>The methods of a name, with that of their type before it: Release.Start.</summary>
        private IEnumerable<MethodDefinition> Find(string name)
        {
            int dot = name.LastIndexOf('.');
            string type = dot < 0 ? "" : name.Substring(0, dot), method = name.Substring(dot + 1);
            return module.GetTypes().Where(it => it.FullName.Replace('/', '.') == type || it.Name == type)
                .SelectMany(it => it.Methods).Where(it => it.Name == method && it.HasBody);
        }
    }
}
