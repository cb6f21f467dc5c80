// The C# of docs/FROM-CSHARP.md, each snippet as a method of a team's class. The number is that of the document on the page, from 0.
using System;
using System.Threading;
using System.Threading.Tasks;
using static System.Threading.Tasks.TaskContinuationOptions;

public class Snippets
{
    public Task S0()
    {
        var fetch = Task.Run(() => Fetch());
        return fetch;
    }

    public Task S1(CancellationToken stop)
    {
        var fetch = Task.Run(() => Fetch(), stop);
        return fetch;
    }

    public Task S3(CancellationToken stop)
    {
        var load = Task.Run(() => { stop.ThrowIfCancellationRequested(); Load(); }, stop);
        return load;
    }

    public Task S4(CancellationToken stop)
    {
        var load = Task.Run(() => { stop.ThrowIfCancellationRequested(); Load(); });
        return load;
    }

    public Task S5()
    {
        var import = Task.Factory.StartNew(() =>
        {
            Task.Factory.StartNew(() => ImportUsers(), TaskCreationOptions.AttachedToParent);
            BuildIndex();
        });
        var next = import.ContinueWith(t => { var e = t.Exception; });
        return import;
    }

    public Task S6()
    {
        var fetch = Task.Factory.StartNew(() => Fetch());
        var next = fetch.ContinueWith(t => Next());
        return next;
    }

    public Task S7()
    {
        var fetch = Task.Factory.StartNew(() => Fetch());
        var ok = fetch.ContinueWith(_ => Ok(), TaskContinuationOptions.OnlyOnRanToCompletion);
        var failed = fetch.ContinueWith(_ => Failed(), TaskContinuationOptions.NotOnRanToCompletion);
        return ok;
    }

    public Task S9(CancellationToken stop)
    {
        var serve = Task.Factory.StartNew(() => Serve());
        var drain = serve.ContinueWith(_ => Drain(), stop, TaskContinuationOptions.LazyCancellation, TaskScheduler.Default);
        var close = drain.ContinueWith(_ => Close());
        return close;
    }

    public Task S10()
    {
        var fetch = Task.Factory.StartNew(() => Fetch());
        var log = fetch.ContinueWith(_ => Log(null), TaskContinuationOptions.ExecuteSynchronously);
        return log;
    }

    public Task S12()
    {
        var fetch = Task.Factory.StartNew(() => Fetch());
        var log = fetch.ContinueWith(t => { if (t.IsFaulted) Log(t.Exception); else if (t.IsCanceled) throw new Stopped(); });
        return log;
    }

    public Task S13()
    {
        var a = Task.Factory.StartNew(() => A());
        var b = Task.Factory.StartNew(() => B());
        var all = Task.WhenAll(a, b);
        var any = Task.WhenAny(a, b);
        var next = all.ContinueWith(t => { var e = t.Exception; });
        return next;
    }

    public Task S14()
    {
        var a = Task.Factory.StartNew(() => A());
        var b = Task.Factory.StartNew(() => B());
        var first = Task.WhenAny(a, b);
        var use = first.ContinueWith(t => { if (t.Result.IsFaulted) throw new NoAnswer(t.Result.Exception); Use(); });
        return use;
    }

    public Task S15(CancellationToken user)
    {
        using (var timeout = new CancellationTokenSource())
        {
            timeout.CancelAfter(5000);
            var both = CancellationTokenSource.CreateLinkedTokenSource(user, timeout.Token);
            var get = Task.Run(() => { both.Token.ThrowIfCancellationRequested(); Get(both.Token); }, both.Token);
            return get;
        }
    }

    public Task S16(CancellationTokenSource stop)
    {
        var watch = Task.Run(() => { Watch(); stop.Cancel(); });
        var worker = Task.Run(() => { stop.Token.ThrowIfCancellationRequested(); Step(); }, stop.Token);
        return worker;
    }

    public async Task S17()
    {
        try
        {
            await LoadAsync();
            await SaveAsync();
        }
        catch (Exception e)
        {
            Log(e);
        }
        finally
        {
            Close();
        }
    }

    public Task S18(bool dry_run)
    {
        var sw = Task.Run(() => { if (dry_run) throw new DryRun(); Switch(); });
        return sw;
    }

    public Task S19(Cache cache)
    {
        var answer = Task.Run(() => { if (!cache.IsFilled) Load(); });
        return answer;
    }

    public sealed class Cache
    {
        public bool IsFilled { get; set; }
    }

    public sealed class Stopped : Exception
    {
    }

    public sealed class DryRun : Exception
    {
    }

    public sealed class NoAnswer : Exception
    {
        public NoAnswer(Exception e) : base("", e)
        {
        }
    }

    public virtual void Fetch()
    {
    }

    public virtual void Load()
    {
    }

    public virtual void ImportUsers()
    {
    }

    public virtual void BuildIndex()
    {
    }

    public virtual void Next()
    {
    }

    public virtual void Ok()
    {
    }

    public virtual void Failed()
    {
    }

    public virtual void Serve()
    {
    }

    public virtual void Drain()
    {
    }

    public virtual void Close()
    {
    }

    public virtual void Log(Exception e)
    {
    }

    public virtual void A()
    {
    }

    public virtual void B()
    {
    }

    public virtual void Use()
    {
    }

    public virtual void Get(CancellationToken t)
    {
    }

    public virtual void Watch()
    {
    }

    public virtual void Step()
    {
    }

    public virtual void Switch()
    {
    }

    public virtual Task LoadAsync()
    {
        return Task.CompletedTask;
    }

    public virtual Task SaveAsync()
    {
        return Task.CompletedTask;
    }
}
