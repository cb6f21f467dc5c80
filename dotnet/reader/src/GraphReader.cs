using System;

namespace TaskGraph.Reading
{
    /// <summary>Reads the document of a method from the compiled code.</summary>
    /// <remarks><c>GraphReader.Read(typeof(Release), nameof(Release.Start)).Safe("Close").Claims.After("Deploy",
    /// "Close").Verify();</c></remarks>
    public static class GraphReader
    {
        /// <summary>Reads a method of a type.</summary>
        /// <exception cref="ArgumentException">The type has no such method, or several.</exception>
        public static ReadGraph Read(Type type, string method)
        {
            if (type == null)
            {
                throw new ArgumentNullException(nameof(type));
            }
            return Read(type.Assembly.Location, type.FullName.Replace('+', '.') + "." + method);
        }

        /// <summary>Reads a method of an assembly, by its name behind that of its type: Release.Start. Of several with that
        /// name and
        /// with so many parameters, Release.Start/2 is the one with two.</summary>
        /// <exception cref="ArgumentException">The assembly has no such method, or several.</exception>
        public static ReadGraph Read(string assembly, string method) => new ReadGraph(new TeamAssembly(assembly).One(method));
    }
}
