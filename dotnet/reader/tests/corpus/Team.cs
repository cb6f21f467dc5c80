using System;
using System.Collections.Generic;
using System.Linq;
using System.Threading;
using System.Threading.Tasks;

/// <summary>Methods as teams write them. Each job is a call of Do or Sync, so that a player can say which jobs fail.</summary>
public class Team : Played
{
    // in milliseconds: some runs of a player take longer, and some don't
    private const int Patience = 12;

    protected Task Load()
    {
        return Do("Load");
    }

    protected Task Save()
    {
        return Do("Save");
    }

    protected Task Undo()
    {
        return Do("Undo");
    }

    protected Task Send()
    {
        return Do("Send");
    }

    protected Task Audit()
    {
        return Do("Audit");
    }

    protected Task Work(CancellationToken t)
    {
        return Do("Work");
    }

    protected Task Serve(CancellationToken t)
    {
        return Do("Serve");
    }

    protected Task Fast()
    {
        return Do("Fast");
    }

    protected Task Slow()
    {
        return Do("Slow");
    }

    protected Task<bool> Ready()
    {
        return Do("Ready").ContinueWith(t => { t.GetAwaiter().GetResult(); return Says("Ready"); });
    }

    protected Task<Conn> Open()
    {
        return Do("Open").ContinueWith(t => { t.GetAwaiter().GetResult(); return new Conn(this); });
    }

    protected Task Item(string n)
    {
        return Do("Item");
    }

    protected void Log(Exception e)
    {
        Sync("Log");
    }

    protected void Close()
    {
        Sync("Close");
    }

    protected void Lock()
    {
        Sync("Lock");
    }

    protected void Unlock()
    {
        Sync("Unlock");
    }

    protected void Check()
    {
        Sync("Check");
    }

    public sealed class Conn : IDisposable
    {
        private readonly Team r;
        public Conn(Team r)
        {
            this.r = r;
        }
        public Task Query()
        {
            return r.Do("Query");
        }
        public void Dispose()
        {
            r.Sync("Dispose");
        }
    }

    public sealed class Late : Exception
    {
    }

    // 1 a release by await: the lost exception of a task that is started early
    public async Task StartEarly()
    {
        var save = Save();
        await Load();
        await save;
    }

    // 2 the timeout by WhenAny
    public async Task WithTimeout()
    {
        var work = Slow();
        var timeout = Task.Delay(40);
        var winner = await Task.WhenAny(work, timeout);
        if (winner == timeout) throw new Late();
        await work;
    }

    // 3 linked tokens, catch of the cancellation
    public async Task Linked(CancellationToken user)
    {
        using (var limit = new CancellationTokenSource(5000)) using (var both = CancellationTokenSource.CreateLinkedTokenSource(user, limit.Token))
        {
            try
            {
                await Work(both.Token);
            }
            catch (OperationCanceledException)
            {
                await Undo();
            }
        }
        await Save();
    }

    // 4 an early return on a result
    public async Task EarlyReturn()
    {
        if (!await Ready())
        {
            return;
        }
        await Load();
        await Save();
    }

    // 5 a condition on a parameter, with both ways and something behind
    public async Task Choose(bool dryRun)
    {
        await Load();
        if (dryRun) await Audit();
        else await Save();
        await Send();
    }

    // 6 using with an await inside
    public async Task Using()
    {
        using (var c = await Open())
        {
            await c.Query();
        }
        await Save();
    }

    // 7 a fixed list
    public async Task FixedList()
    {
        foreach (var n in new[] { "a", "b", "c" }) await Item(n);
        await Save();
    }

    // 8 a list that isn't known
    public async Task UnknownList(IEnumerable<string> names)
    {
        await Load();
        foreach (var n in names)
        {
            await Item(n);
        }
        await Save();
    }

    // 9 WhenAll over a list that isn't known
    public async Task WhenAllSelect(IEnumerable<string> names)
    {
        await Task.WhenAll(names.Select(n => Item(n)));
        await Save();
    }

    // 10 WhenAll over a list that is made here
    public async Task WhenAllList()
    {
        var all = new List<Task>();
        all.Add(Load());
        all.Add(Send());
        await Task.WhenAll(all);
        await Save();
    }

    // 11 async void
    public async void Fire()
    {
        try
        {
            await Load();
        }
        catch (Exception e)
        {
            Log(e);
        }
    }

    // 12 blocking
    public void Blocking()
    {
        var a = Task.Run(() => Check());
        var b = Task.Run(() => Lock());
        a.Wait();
        b.Wait();
        Close();
    }

    // 13 a nested try with rethrow and finally
    public async Task Nested()
    {
        Lock();
        try
        {
            try
            {
                await Load();
                await Save();
            }
            catch (Exception)
            {
                await Undo();
                throw;
            }
        }
        finally
        {
            Unlock();
        }
        await Send();
    }

    // 14 a retry with a bound and a delay
    public async Task Retry()
    {
        for (int i = 0; i < 3; i++)
        {
            try
            {
                await Send();
                break;
            }
            catch (Exception)
            {
                if (i == 2) throw;
                await Task.Delay(1);
            }
        }
        await Save();
    }

    // 15 continuations in a method with lambdas that capture
    public Task Wired(CancellationTokenSource stop)
    {
        var load = Task.Run(() => Check(), stop.Token);
        var save = load.ContinueWith(t =>
        {
            if (t.IsFaulted)
            {
                Log(t.Exception);
                stop.Cancel();
            }
            else Close();
        }, TaskContinuationOptions.NotOnCanceled);
        var both = Task.WhenAll(load, save);
        return both.ContinueWith(_ => Unlock(), TaskContinuationOptions.None);
    }

    // 16 an async lambda in Task.Run, and an own async method that is awaited
    public async Task Lambda()
    {
        var work = Task.Run(async () =>
        {
            await Load();
            Check();
            await Save();
        });
        try
        {
            await work;
        }
        catch (Exception e)
        {
            Log(e);
        }
        await Inner();
    }

    private async Task Inner()
    {
        try
        {
            await Send();
        }
        finally
        {
            Close();
        }
    }

    // 17 own async methods that run beside each other
    public async Task Beside()
    {
        var a = Inner();
        var b = Second();
        await Task.WhenAll(a, b);
        await Audit();
    }

    private async Task Second()
    {
        await Load();
        await Save();
    }

    // 18 a loop until it is stopped
    public async Task Pump(CancellationToken stop)
    {
        Lock();
        try
        {
            while (!stop.IsCancellationRequested)
            {
                await Serve(stop);
            }
        }
        finally
        {
            Unlock();
        }
    }

    // 19 catch by type
    public async Task ByType()
    {
        try
        {
            await Load();
        }
        catch (InvalidOperationException)
        {
            await Undo();
        }
        catch (Exception e)
        {
            Log(e);
            throw;
        }
        await Save();
    }

    // 20 compensations of a saga
    public async Task Saga()
    {
        bool charged = false;
        try
        {
            await Load();
            charged = true;
            await Save();
            await Send();
        }
        catch (Exception)
        {
            if (charged) await Undo();
            throw;
        }
    }

    // 21 a finally that awaits
    public async Task AwaitFinally()
    {
        await Load();
        try
        {
            await Save();
        }
        finally
        {
            await Audit();
        }
        await Send();
    }

    // 22 first answer wins, the other one is stopped
    public async Task FirstWins()
    {
        using (var cts = new CancellationTokenSource())
        {
            var a = Work(cts.Token);
            var b = Serve(cts.Token);
            var first = await Task.WhenAny(a, b);
            cts.Cancel();
            await first;
        }
        await Save();
    }

    // 23 the status read through a variable
    public async Task Status()
    {
        var a = Fast();
        var b = Slow();
        try
        {
            await Task.WhenAll(a, b);
        }
        catch (Exception)
        {
            if (a.IsFaulted) await Undo();
            else Log(b.Exception);
        }
    }

    // 24 a semaphore
    private readonly SemaphoreSlim gate = new SemaphoreSlim(1);

    public async Task Gate()
    {
        await gate.WaitAsync();
        try
        {
            await Load();
        }
        finally
        {
            gate.Release();
        }
        await Save();
    }

    // 25 StartNew with an async lambda, without Unwrap: a well-known mistake
    public async Task Forgot()
    {
        await Task.Factory.StartNew(async () => { await Load(); await Save(); });
        await Send();
    }

    // 26 a completion source
    public async Task Completion()
    {
        var done = new TaskCompletionSource<int>();
        Task.Run(() => { Check(); done.SetResult(1); });
        await done.Task;
        await Save();
    }

    // 27 polling with a delay
    public async Task Poll()
    {
        while (!await Ready())
        {
            await Task.Delay(100);
        }
        await Save();
    }

    // 28 switch on a value
    public async Task Switch(int mode)
    {
        switch (mode)
        {
            case 0: await Load();
            break;
            case 1: await Save();
            break;
            case 2: await Send();
            break;
            default: throw new Late();
        }
        await Audit();
    }

    // 29 a throttled WhenAny loop
    public async Task Throttled(IEnumerable<string> names)
    {
        var open = new List<Task>();
        foreach (var n in names)
        {
            open.Add(Item(n));
            if (open.Count > 4)
            {
                var d = await Task.WhenAny(open);
                open.Remove(d);
            }
        }
        await Task.WhenAll(open);
    }

    // 30 a callback of a token
    public async Task Callback(CancellationToken stop)
    {
        using (stop.Register(() => Check()))
        {
            await Load();
        }
    }

    // 31 fire and forget
    public async Task Forget()
    {
        await Load();
        var _ = Send();
        await Save();
    }

    // 32 nothing to await, ternary and null checks
    public async Task<int> Ternary(string name)
    {
        var t = name == null ? Fast() : Slow();
        await t;
        return 1;
    }

    // 33 a wait with a time
    public void InTime()
    {
        var load = Load();
        if (!load.Wait(Patience))
        {
            Undo().Wait();
            return;
        }
        Check();
    }

    // 34 a wait with a token
    public void UntilStopped(CancellationToken stop)
    {
        var load = Load();
        try
        {
            load.Wait(stop);
        }
        catch (OperationCanceledException)
        {
            Undo().Wait();
        }
        Close();
    }

    // 35 the first of two, by its number
    public void AnyOf()
    {
        var tasks = new[] { Fast(), Slow() };
        int first = Task.WaitAny(tasks);
        if (first == 0)
        {
            Lock();
        }
        tasks[first].Wait();
        Check();
    }

    // 36 the first of two, with a time and a token
    public void AnyInTime(CancellationToken stop)
    {
        int first = Task.WaitAny(new[] { Fast(), Slow() }, Patience, stop);
        if (first < 0)
        {
            Undo().Wait();
        }
        Check();
    }

    // 37 all of a list, with a time
    public void AllInTime()
    {
        var open = new List<Task> { Fast(), Slow() };
        bool isOver = Task.WaitAll(open.ToArray(), TimeSpan.FromMilliseconds(Patience));
        if (!isOver)
        {
            Send().Wait();
        }
        Check();
    }

    // 38 all of two, with a token
    public void AllUntilStopped(CancellationToken stop)
    {
        Task.WaitAll(new[] { Fast(), Work(stop) }, stop);
        Check();
    }
}
