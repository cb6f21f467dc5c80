using System;
using System.Threading;
using System.Threading.Tasks;

/// <summary>What the C# of docs/FROM-CSHARP.md names and doesn't declare: the team's code.</summary>
public abstract class Code
{
    protected readonly CancellationToken stop = CancellationToken.None, user = CancellationToken.None;
    protected readonly CancellationTokenSource cts = new CancellationTokenSource();
    protected readonly Cache cache = new Cache();
    protected readonly bool dryRun = true;
    protected readonly Task fetch = Task.Delay(0), serve = Task.Delay(0), a = Task.Delay(0), b = Task.Delay(0);

    protected sealed class Cache
    {
        public bool IsFilled { get; set; }
    }

    protected sealed class Stopped : Exception
    {
    }

    protected sealed class DryRun : Exception
    {
    }

    protected sealed class NoAnswer : Exception
    {
        public NoAnswer(Exception inner)
            : base("no answer", inner)
        {
        }
    }

    protected void Fetch()
    {
    }

    protected Task Save() => Task.Delay(0);

    protected Task Load() => Task.Delay(0);

    protected void ImportUsers()
    {
    }

    protected void BuildIndex()
    {
    }

    protected void Next(Exception thrown = null)
    {
    }

    protected void Ok()
    {
    }

    protected void Failed()
    {
    }

    protected void Drain()
    {
    }

    protected void Log(Exception thrown = null)
    {
    }

    protected void Use(Task winner)
    {
    }

    protected void Get(CancellationToken token)
    {
    }

    protected void Watch()
    {
    }

    protected void Close()
    {
    }

    protected void Switch()
    {
    }
}
