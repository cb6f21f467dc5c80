// Methods that tempt a reader into a wrong graph. What each must give stands beside it.
using System;
using System.Collections.Generic;
using System.Linq;
using System.Threading;
using System.Threading.Tasks;

public class Hostile : Played
{
    Task Load()
    {
        return Do("Load");
    }

    Task Save()
    {
        return Do("Save");
    }

    void Check()
    {
        Sync("Check");
    }

    void Undo()
    {
        Sync("Undo");
    }

    bool Bit()
    {
        Sync("Bit");
        return true;
    }

    // a captured flag that the maker sets later: both ways in the body
    public Task LaterSet()
    {
        bool on = false;
        var t = Task.Run(() => { if (on) Check(); else Undo(); });
        on = true;
        return t;
    }

    // a captured flag that another body sets: both ways
    public Task SetElsewhere()
    {
        bool ok = false;
        var a = Task.Run(() => { Check(); ok = true; });
        return a.ContinueWith(_ => { if (!ok) Undo(); });
    }

    // a captured task that is assigned after the lambda: refuse, or the right one
    public Task LateTask()
    {
        Task b = null;
        var a = Task.Run(() => { b.Wait(); Check(); });
        b = Task.Run(() => Undo());
        return a;
    }

    // the same job before a task is made: the task is made only if it didn't throw
    public Task JobFirst()
    {
        Check();
        return Task.Run(() => Undo());
    }

    // a continuation of a task that isn't always made
    public Task Maybe(bool b)
    {
        Task t = null;
        if (b)
        {
            t = Task.Run(() => Check());
        }
        if (t != null) return t.ContinueWith(_ => Undo());
        return Task.CompletedTask;
    }

    // tasks in a loop with a bound
    public Task Three()
    {
        var l = new List<Task>();
        for (int i = 0; i < 3; i++) l.Add(Task.Run(() => Check()));
        return Task.WhenAll(l);
    }

    // tasks in a loop without one: refuse
    public Task Many(int n)
    {
        var l = new List<Task>();
        for (int i = 0; i < n; i++) l.Add(Task.Run(() => Check()));
        return Task.WhenAll(l);
    }

    // a task kept in a field, which another method may change: note
    private Task last;

    public async Task Field()
    {
        last = Load();
        await Save();
        await last;
    }

    // the flag read twice: two reads may differ
    private bool flag;

    public async Task Twice()
    {
        if (flag) await Load();
        if (flag) await Save();
    }

    // the argument read twice: the same answer
    public async Task TwiceArg(bool f)
    {
        if (f) await Load();
        if (f) await Save();
    }

    // an attached child in a body that also waits: refuse
    public Task Attached()
    {
        return Task.Factory.StartNew(() =>
        {
            var t = Task.Run(() => Check());
            Task.Factory.StartNew(() => Undo(), TaskCreationOptions.AttachedToParent);
            t.Wait();
        });
    }

    // the antecedent's result read in a continuation without options: rethrows
    public Task Result()
    {
        var a = Task.Run(() => Bit());
        return a.ContinueWith(t => { if (t.Result) Undo(); });
    }

    // cancel in a catch
    public async Task CancelInCatch()
    {
        var cts = new CancellationTokenSource();
        var w = Task.Run(() => { cts.Token.ThrowIfCancellationRequested(); Check(); }, cts.Token);
        try
        {
            await Load();
        }
        catch (Exception)
        {
            cts.Cancel();
            throw;
        }
        await w;
    }

    // a source that a job gets: the outside
    void Give(CancellationTokenSource c)
    {
        Sync("Give");
    }

    public Task Handed()
    {
        var cts = new CancellationTokenSource();
        Give(cts);
        return Task.Run(() => Check(), cts.Token);
    }

    // recursion
    public async Task Again(int n)
    {
        await Load();
        if (n > 0) await Again(n - 1);
    }

    // goto
    public async Task Goto(bool b)
    {
        if (b) goto end;
        await Load();
        end: await Save();
    }

    // a local function that starts tasks
    public Task Local()
    {
        Func<Task> f = () => Task.Run(() => Check());
        var a = f();
        var b = f();
        return Task.WhenAll(a, b);
    }

    // exceptions that are thrown by hand and caught by type
    public async Task Thrown(bool b)
    {
        try
        {
            await Load();
            if (b) throw new ArgumentNullException("x");
            await Save();
        }
        catch (ArgumentException)
        {
            Undo();
        }
    }

    // an OperationCanceledException thrown by hand
    public async Task Oce(bool b)
    {
        if (b) throw new OperationCanceledException();
        await Load();
    }

    // new Task and Start: refuse
    public Task Cold()
    {
        var t = new Task(() => Check());
        t.Start();
        return t;
    }

    // an await in a lock-like pattern with Monitor
    public Task Locked()
    {
        lock (this)
        {
            return Task.Run(() => Check());
        }
    }

    // a custom awaitable: refuse
    public async Task Custom()
    {
        await new Thing();
        await Load();
    }

    public class Thing
    {
        public System.Runtime.CompilerServices.TaskAwaiter GetAwaiter()
        {
            return Task.Delay(1).GetAwaiter();
        }
    }

    // a job for each item that captures a token: it may stop by it
    public Task EachWithToken(CancellationToken stop)
    {
        return Task.WhenAll(new[] { 1, 2 }.Select(it => Serve(stop)));
    }

    // a lambda that is handed to other code, and captures a token: so may that
    public async Task HandedWithToken(CancellationToken stop)
    {
        await Guard(() => Serve(stop));
    }

    // a task that is joined beside tasks whose number isn't known: refuse
    public Task Beside(IEnumerable<string> names)
    {
        var own = Load();
        return Task.WhenAll(names.Select(it => Save()).Concat(new[] { own }));
    }

    // a callback that only requests a token: the outside may do that at any moment
    public Task OnKey()
    {
        var stop = new CancellationTokenSource();
        Console.CancelKeyPress += (_, it) => stop.Cancel();
        return Task.Run(() => Check(), stop.Token);
    }

    // a callback that makes a task: refuse
    public Task OnKeyStart()
    {
        Console.CancelKeyPress += (_, it) => Task.Run(() => Check());
        return Load();
    }

    Task Serve(CancellationToken stop)
    {
        return Do("Serve");
    }

    Task Guard(Func<Task> act)
    {
        return act();
    }
}
