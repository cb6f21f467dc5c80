using System;
using System.Threading;
using System.Threading.Tasks;
using TaskGraph;

namespace Sample
{
    /// <summary>Methods that are written with await, each with its declaration.</summary>
    public class Orders
    {
        // ---- one await after another

        public async Task Import()
        {
            await Load();
            await Save();
        }

        public MethodBlock DeclareImport(TaskGraphBuilder g)
        {
            return g.Method("Import")
                .Await("Load", () => Load(), mayFail: true)
                .Await("Save", () => Save(), mayFail: true);
        }

        // ---- try, catch, finally

        public async Task Handle()
        {
            try { await Load(); await Save(); }
            catch (Exception e) { Log(e); }
            finally { Close(); }
        }

        public MethodBlock DeclareHandle(TaskGraphBuilder g)
        {
            return g.Method("Handle")
                .Try(it => it
                    .Await("Load", () => Load(), mayFail: true)
                    .Await("Save", () => Save(), mayFail: true))
                .Catch("Log", e => Log(e))
                .Finally("Close", () => Close());
        }

        // ---- a catch that throws again, and what follows

        public async Task Reply()
        {
            try { await Load(); }
            catch (Exception e) { Log(e); throw; }
            finally { Close(); }
            await Send();
        }

        public MethodBlock DeclareReply(TaskGraphBuilder g)
        {
            return g.Method("Reply")
                .Try(it => it.Await("Load", () => Load(), mayFail: true))
                .CatchAndRethrow("Log", e => Log(e))
                .Finally("Close", () => Close())
                .Await("Send", () => Send(), mayFail: true);
        }

        // ---- a try that something stands before, a handler that may fail, and what follows

        public async Task Update()
        {
            await Load();
            try { await Save(); }
            catch (Exception) { await Undo(); }
            finally { Close(); }
            await Send();
        }

        public MethodBlock DeclareUpdate(TaskGraphBuilder g)
        {
            return g.Method("Update")
                .Await("Load", () => Load(), mayFail: true)
                .Try(it => it.Await("Save", () => Save(), mayFail: true))
                .Catch("Undo", e => Undo(), mayFail: true)
                .Finally("Close", () => Close())
                .Await("Send", () => Send(), mayFail: true);
        }

        // ---- calls that are awaited together

        public async Task Show()
        {
            await Task.WhenAll(Users(), Prices());
            await Send();
        }

        public MethodBlock DeclareShow(TaskGraphBuilder g)
        {
            return g.Method("Show")
                .AwaitAll("Both", all => all
                    .Call("Users", () => Users(), mayFail: true)
                    .Call("Prices", () => Prices(), mayFail: true))
                .Await("Send", () => Send(), mayFail: true);
        }

        // ---- await using; the method is written here as the compiler has it, since C# 7 has no await using

        public async Task Copy()
        {
            await Open();
            try { await Load(); }
            finally { await Dispose(); }
            await Send();
        }

        public MethodBlock DeclareCopy(TaskGraphBuilder g)
        {
            return g.Method("Copy")
                .AwaitUsing("Open", () => Open(), "Dispose", () => Dispose(), mayFail: true, block: it => it
                    .Await("Load", () => Load(), mayFail: true))
                .Await("Send", () => Send(), mayFail: true);
        }

        // ---- a bounded retry

        public async Task Deliver()
        {
            for (int attempt = 1; ; attempt++)
            {
                try { await Send(attempt); break; }
                catch (Exception) when (attempt < 3) { }
            }
            await Save();
        }

        public MethodBlock DeclareDeliver(TaskGraphBuilder g)
        {
            return g.Method("Deliver")
                .Retry("Send", 3, attempt => Send(attempt))
                .Await("Save", () => Save(), mayFail: true);
        }

        // ---- a retry inside a try, with a call before it

        public async Task Pay()
        {
            await Load();
            try
            {
                for (int attempt = 1; ; attempt++)
                {
                    try { await Send(attempt); break; }
                    catch (Exception) when (attempt < 2) { }
                }
                await Save();
            }
            catch (Exception e) { Log(e); }
            await Undo();
        }

        public MethodBlock DeclarePay(TaskGraphBuilder g)
        {
            return g.Method("Pay")
                .Await("Load", () => Load(), mayFail: true)
                .Try(it => it
                    .Retry("Send", 2, attempt => Send(attempt))
                    .Await("Save", () => Save(), mayFail: true))
                .Catch("Log", e => Log(e))
                .Await("Undo", () => Undo(), mayFail: true);
        }

        // ---- a call with a token

        public async Task Fetch(CancellationToken stop)
        {
            try { await Get(stop); }
            finally { Close(); }
            await Save();
        }

        public MethodBlock DeclareFetch(TaskGraphBuilder g, GraphToken stop)
        {
            return g.Method("Fetch")
                .Try(it => it.Await("Get", stop, token => Get(token), mayFail: true))
                .Finally("Close", () => Close())
                .Await("Save", () => Save(), mayFail: true);
        }

        // ---- the team's code

        protected virtual Task Do(string job) => Task.Delay(1);

        private Task Load() => Do("Load");

        private Task Save() => Do("Save");

        private Task Undo() => Do("Undo");

        private Task Send() => Do("Send");

        private Task Send(int attempt) => Do("Send" + attempt);

        private Task Users() => Do("Users");

        private Task Prices() => Do("Prices");

        private Task Open() => Do("Open");

        private Task Dispose() => Do("Dispose");

        private void Log(Exception e)
        {
            Do("Log").Wait();
        }

        private void Close()
        {
            Do("Close").Wait();
        }

        private async Task Get(CancellationToken stop)
        {
            await Do("Get");
            stop.ThrowIfCancellationRequested();
        }
    }
}
