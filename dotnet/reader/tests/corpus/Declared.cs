using System;
using System.Collections.Generic;
using System.Linq;
using System.Reflection;
using Sample;
using TaskGraph;

/// <summary>Writes what the library's samples declare: the document of each method that stands beside its declaration.</summary>
internal static class Declared
{
    private const string Declares = "Declare";

    private static void Main()
    {
        foreach (MethodInfo declaration in typeof(Orders).GetMethods().Where(it => it.Name.StartsWith(Declares, StringComparison.Ordinal)))
        {
            var graph = new TaskGraphBuilder();
            object[] arguments = declaration.GetParameters()
                .Select(it => it.ParameterType == typeof(GraphToken) ? graph.Token(it.Name) : (object)graph).ToArray();
            ((MethodBlock)declaration.Invoke(new Orders(), arguments)).AsTask();
            Write("Orders." + declaration.Name.Substring(Declares.Length), graph);
        }
        Write("Release.Start", new Release().Graph());
    }

    private static void Write(string method, TaskGraphBuilder graph)
    {
        Console.WriteLine(method + "\t" + graph.ToJson().Replace("\n", ""));
    }
}
