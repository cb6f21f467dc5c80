using System;
using System.Threading;
using System.Threading.Tasks;
using System.Linq;
using static System.Threading.Tasks.TaskContinuationOptions;
// ContinueWith code as it is found in older projects
public class Wiring
{
    public virtual void A()
    {
    }

    public virtual void B()
    {
    }

    public virtual void C()
    {
    }

    public virtual void D()
    {
    }

    public virtual Task X()
    {
        return Task.CompletedTask;
    }

    public virtual Task Y()
    {
        return Task.CompletedTask;
    }

    public Task Chain()
    {
        return Task.Factory.StartNew(A).ContinueWith(t => { if (t.IsFaulted) throw t.Exception; B(); }).ContinueWith(t => { C(); }, OnlyOnRanToCompletion);
    }

    public Task Unwrapped()
    {
        return Task.Run(() => A()).ContinueWith(async t => { await X(); await Y(); }).Unwrap().ContinueWith(t => C());
    }

    public Task WhenAllThen()
    {
        var all = new[] { Task.Run(() => A()), Task.Run(() => B()) };
        return Task.Factory.ContinueWhenAll(all, ts => { foreach (var t in ts) if (t.IsFaulted) throw t.Exception; C(); });
    }

    public Task Status()
    {
        var a = Task.Run(() => A());
        return a.ContinueWith(t =>
        {
            switch (t.Status)
            {
                case TaskStatus.Faulted: B();
                break;
                case TaskStatus.Canceled: C();
                break;
                default: D();
                break;
            }
        });
    }

    public Task Nested()
    {
        return Task.Run(() => A()).ContinueWith(_ => Task.Run(() => B())).Unwrap();
    }

    public Task MethodGroup(CancellationToken ct)
    {
        var a = Task.Factory.StartNew(A, ct, TaskCreationOptions.LongRunning, TaskScheduler.Default);
        a.ContinueWith(OnError, OnlyOnFaulted);
        a.ContinueWith(OnOk, ct, OnlyOnRanToCompletion | ExecuteSynchronously, TaskScheduler.Default);
        return a;
    }

    void OnError(Task t)
    {
        Tell(t.Exception);
    }

    void OnOk(Task t)
    {
        B();
    }

    public virtual void Tell(Exception e)
    {
    }

    public void FireAndForget()
    {
        Task.Run(() => A());
        Task.Run(async () => { await X(); B(); });
    }

    public Task Result()
    {
        var n = Task.Run(() => 1);
        return n.ContinueWith(t =>
        {
            try
            {
                int k = t.Result;
                B();
            }
            catch (AggregateException)
            {
                C();
            }
        });
    }
}
