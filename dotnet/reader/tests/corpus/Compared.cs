using System;
using Sample;
using TaskGraph;
using TaskGraph.Reading;

/// <summary>Runs a method as it is declared, and asks whether the method that is read has such a run. The library and the reader are
/// compiled into one program, as into a project that takes both packages.</summary>
internal static class Compared
{
    private static void Main()
    {
        foreach (string failing in new[] { "none", "Load", "Save" })
        {
            var g = new TaskGraphBuilder();
            new Orders().DeclareImport(g).AsTask();
            GraphRun run = g.Start(failing == "none" ? null : RunOptions.Failing(failing));
            run.Wait();
            run.Audit();
            GraphReader.Read(typeof(Orders), nameof(Orders.Import)).Compare(run.ToJson());
            Console.WriteLine(failing + "\t" + Answer(run.ToJson()));
        }
    }

    /// <summary>What is said of the same run of a method in which a call that fails isn't the last one.</summary>
    private static string Answer(string run)
    {
        try
        {
            GraphReader.Read(typeof(Orders), nameof(Orders.Import)).Compare(run.Replace("\"Import\":\"Faulted\"", "\"Import\":\"RanToCompletion\""));
            return "found";
        }
        catch (ClaimException thrown)
        {
            return thrown.Message.Split('\n')[0];
        }
    }
}
