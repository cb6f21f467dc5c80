using System;
using System.Collections.Generic;
using System.Linq;
using System.Threading;
using System.Threading.Tasks;

/// <summary>Plays the jobs of one run: by chance they end well, fail or stop by the token, in some order.</summary>
public sealed class Player
{
    private const int MostRounds = 60, MostLooks = 400, Pause = 2, Longer = 60, LastWait = 300;
    private static readonly string[] WithToken = { "Work", "Serve" };

    private readonly object gate = new object();
    private readonly Random chance;
    private readonly bool hasToken;
    private readonly bool hasTypes;
    private readonly Dictionary<string, int> counts = new Dictionary<string, int>();
    private readonly Dictionary<string, TaskCompletionSource<int>> open = new Dictionary<string, TaskCompletionSource<int>>();
    private int changes;

    /// <param name="seed">What the choices come from.</param>
    /// <param name="hasToken">Whether a token may be requested.</param>
    /// <param name="hasTypes">Whether jobs fail with exceptions of two types.</param>
    public Player(int seed, bool hasToken, bool hasTypes)
    {
        chance = new Random(seed);
        this.hasToken = hasToken;
        this.hasTypes = hasTypes;
    }

    public CancellationTokenSource Stop { get; } = new CancellationTokenSource();

    /// <summary>The jobs that were called.</summary>
    public List<string> Begun { get; } = new List<string>();

    /// <summary>How they ended.</summary>
    public Dictionary<string, string> Ended { get; } = new Dictionary<string, string>();

    public int Choose(int count)
    {
        lock (gate)
        {
            return chance.Next(count);
        }
    }

    public Task Do(string job)
    {
        lock (gate)
        {
            var source = new TaskCompletionSource<int>();
            open[Name(job)] = source;
            return source.Task;
        }
    }

    public void Sync(string job)
    {
        lock (gate)
        {
            string name = Name(job);
            int choice = Choose(hasTypes ? 3 : 2);
            Ended[name] = choice == 0 ? "RanToCompletion" : "Faulted";
            if (choice > 0)
            {
                throw Thrown(name, choice);
            }
        }
    }

    public bool Says(string job) => Choose(2) == 0;

    /// <summary>Runs a method, and gives how its task ended.</summary>
    public string Run(Func<Task> method)
    {
        Task task;
        try
        {
            task = method();
        }
        catch (Exception)
        {
            return "Faulted";
        }
        for (int round = 0; round < MostRounds && !IsOver(task); round++)
        {
            Step();
        }
        try
        {
            task?.Wait(LastWait);
        }
        catch (AggregateException)
        {
            // its status says it
        }
        return task == null ? "RanToCompletion" : task.IsCompleted ? task.Status.ToString() : "Running";
    }

    private static Exception Thrown(string name, int choice) =>
        choice == 1 ? new InvalidOperationException(name) : (Exception)new ArgumentException(name);

    private string Name(string job)
    {
        counts.TryGetValue(job, out int count);
        counts[job] = count + 1;
        string name = count == 0 ? job : job + "_" + (count + 1);
        Begun.Add(name);
        changes++;
        return name;
    }

    private bool IsOver(Task task)
    {
        Quiet();
        lock (gate)
        {
            return open.Count == 0 && (task == null || task.IsCompleted);
        }
    }

    /// <summary>Waits until nothing changes any more.</summary>
    private void Quiet()
    {
        int last = -1;
        for (int look = 0; look < MostLooks; look++)
        {
            int now;
            lock (gate)
            {
                now = changes;
            }
            if (now == last && look > 2)
            {
                return;
            }
            last = now;
            Thread.Sleep(Pause);
        }
    }

    /// <summary>Ends one job, or requests the token.</summary>
    private void Step()
    {
        string[] jobs;
        lock (gate)
        {
            jobs = open.Keys.OrderBy(it => it, StringComparer.Ordinal).ToArray();
        }
        bool mayStop = hasToken && !Stop.IsCancellationRequested;
        if (jobs.Length == 0)
        {
            Thread.Sleep(Longer);
        }
        else if (mayStop && Choose(jobs.Length + 1) == 0)
        {
            Stop.Cancel();
        }
        else
        {
            string job = jobs[Choose(jobs.Length)];
            bool mayCancel = Stop.IsCancellationRequested && WithToken.Any(it => job.StartsWith(it, StringComparison.Ordinal));
            End(job, Choose(hasTypes || mayCancel ? 3 : 2), mayCancel);
        }
    }

    private void End(string job, int choice, bool mayCancel)
    {
        TaskCompletionSource<int> source;
        bool isCanceled = choice == 2 && mayCancel;
        lock (gate)
        {
            source = open[job];
            open.Remove(job);
            Ended[job] = choice == 0 ? "RanToCompletion" : isCanceled ? "Canceled" : "Faulted";
            changes++;
        }
        if (choice == 0)
        {
            source.SetResult(1);
        }
        else if (isCanceled)
        {
            source.SetCanceled();
        }
        else
        {
            source.SetException(Thrown(job, choice));
        }
    }
}
