using System;
using System.Threading;
using System.Threading.Tasks;
using TaskGraph;

/// <summary>What the declarations of docs/FROM-CSHARP.md name and don't declare.</summary>
public abstract class Declaring
{
    protected readonly TaskGraphBuilder g;
    protected readonly GraphToken stop, user;
    protected readonly GraphTask fetch, serve, a, b, users;
    protected readonly GraphInput dryRun, cached;
    protected readonly Steps steps = new Steps();

    protected Declaring(TaskGraphBuilder g)
    {
        this.g = g;
        stop = g.Token("stop");
        user = g.Token("user");
        fetch = g.Run("Fetching", Fetch);
        serve = g.Run("Serving", Fetch);
        a = g.Run("A", Fetch);
        b = g.Run("B", Fetch);
        users = g.Child("Imported", Fetch);
        dryRun = g.Input("dry_run");
        cached = g.Decides("has", Has);
    }

    protected static bool Has() => true;

    protected static void Fetch()
    {
    }

    protected static void Load()
    {
    }

    protected static void ImportUsers()
    {
    }

    protected static void Next()
    {
    }

    protected static void Ok()
    {
    }

    protected static void Drain()
    {
    }

    protected static void Log(Exception thrown = null)
    {
    }

    protected static void Use(Task winner)
    {
    }

    protected static void Get(CancellationToken token)
    {
    }

    protected static void Watch()
    {
    }

    protected static void Switch()
    {
    }
}
