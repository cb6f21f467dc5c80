using System;
using System.Collections.Concurrent;
using System.Collections.Generic;
using System.Linq;
using System.Threading;
using System.Threading.Tasks;

// Seven pieces of C# as teams write it, in C# 7: a using declaration is a using statement, and an await foreach is written out.
// What they call is given by stubs.
namespace Pieces
{
    public abstract class Services
    {
        public abstract Task Begin(CancellationToken stop);

        public abstract Rows Read(CancellationToken stop);

        public abstract IEnumerable<int[]> Batches(BlockingCollection<int> queue, CancellationToken stop);

        public abstract Task BulkInsert(int[] batch, CancellationToken stop);

        public abstract Task Commit(CancellationToken stop);

        public abstract Task Rollback();

        public abstract Task Close();

        public abstract Task Lock(CancellationToken stop);

        public abstract Task Unlock();

        public abstract Task<string> Current(CancellationToken stop);

        public abstract Task Push(CancellationToken stop);

        public abstract Task Smoke(string slot, CancellationToken stop);

        public abstract Task Switch(string slot, CancellationToken stop);

        public abstract Task Retire(string slot, CancellationToken stop);

        public abstract void LogError(Exception thrown);

        public abstract Task<string> LoadFromApi(CancellationToken stop);

        public abstract void Set(string value);

        public abstract string Cached();

        public abstract Task<string> Post(CancellationToken stop);

        public abstract Task Mark(string invoice, CancellationToken stop);

        public abstract Task DeadLetter(Exception thrown);

        public abstract void Restore();

        public abstract void Compile(string project);

        public abstract void Test();

        public abstract void PackNuget();

        public abstract void Sign();

        public abstract void Publish();

        public abstract void Cleanup(AggregateException thrown);

        public abstract Task<Telemetry> Start();

        public abstract Task<Settings> LoadConfig(CancellationToken stop);

        public abstract Task PrintPlan();

        public abstract Task Migrate(CancellationToken stop);

        public abstract Task Seed(CancellationToken stop);

        public abstract Task<Order> Find(int id, CancellationToken stop);

        public abstract Task<int> Score(Order order, CancellationToken stop);

        public abstract Task Queue(Order order, CancellationToken stop);

        public abstract Task Capture(Order order, CancellationToken stop);

        public abstract Task Save(CancellationToken stop);

        public abstract Task Announce(int id);
    }

    public abstract class Rows
    {
        public abstract int Current { get; }

        public abstract Task<bool> MoveNextAsync();
    }

    public abstract class Telemetry
    {
        public abstract Task Error(Exception thrown);

        public abstract Task Flush();

        public abstract Task DisposeAsync();
    }

    public abstract class Settings
    {
        public abstract bool DryRun();
    }

    public abstract class Order
    {
        public abstract bool IsApproved();
    }

    public sealed class ImportTimeoutException : Exception
    {
    }

    public sealed class HttpException : Exception
    {
        public int Status { get; set; }
    }

    /// <summary>The pieces.</summary>
    public sealed class Pieces
    {
        private readonly Services services;

        public Pieces(Services services)
        {
            this.services = services;
        }

        public async Task<int> Import(CancellationToken shutdown)
        {
            using (var timeout = new CancellationTokenSource(TimeSpan.FromMinutes(20)))
            using (var linked = CancellationTokenSource.CreateLinkedTokenSource(shutdown, timeout.Token))
            using (var queue = new BlockingCollection<int>(1000))
            {
                await services.Begin(linked.Token);
                var producer = Task.Run(
                    async () =>
                    {
                        try
                        {
                            Rows rows = services.Read(linked.Token);
                            while (await rows.MoveNextAsync())
                            {
                                queue.Add(rows.Current, linked.Token);
                            }
                        }
                        finally
                        {
                            queue.CompleteAdding();
                        }
                    },
                    linked.Token);
                var consumers = Enumerable.Range(1, 3).Select(i => Task.Run(
                    async () =>
                    {
                        foreach (var batch in services.Batches(queue, linked.Token))
                        {
                            await services.BulkInsert(batch, linked.Token);
                        }
                    },
                    linked.Token)).ToArray();
                try
                {
                    await Task.WhenAll(consumers.Append(producer));
                    await services.Commit(CancellationToken.None);
                    return 1;
                }
                catch (OperationCanceledException) when (timeout.IsCancellationRequested)
                {
                    await services.Rollback();
                    throw new ImportTimeoutException();
                }
                catch
                {
                    linked.Cancel();
                    await services.Rollback();
                    throw;
                }
                finally
                {
                    await services.Close();
                }
            }
        }

        public async Task Deploy(CancellationToken ct)
        {
            await services.Lock(ct);
            try
            {
                var previous = await services.Current(ct);
                await services.Push(ct);
                await services.Smoke("green", ct);
                try
                {
                    await services.Switch("green", ct);
                    await services.Smoke("live", ct);
                }
                catch (Exception thrown)
                {
                    services.LogError(thrown);
                    await services.Switch(previous, ct);
                    throw;
                }
                await services.Retire(previous, CancellationToken.None);
            }
            finally
            {
                await services.Unlock();
            }
        }

        public async Task<string> Refresh(CancellationToken ct)
        {
            var refresh = services.LoadFromApi(ct);
            var delay = Task.Delay(TimeSpan.FromSeconds(2), ct);
            var first = await Task.WhenAny(refresh, delay);
            if (first == refresh)
            {
                var fresh = await refresh;
                services.Set(fresh);
                return fresh;
            }
            return services.Cached() ?? await refresh;
        }

        public async Task Invoice(CancellationToken ct)
        {
            try
            {
                var invoice = await PostWithRetry(ct);
                await services.Mark(invoice, ct);
            }
            catch (Exception thrown) when (!(thrown is OperationCanceledException))
            {
                await services.DeadLetter(thrown);
            }
        }

        public Task Build(CancellationToken stop)
        {
            var build = Task.Run(
                () =>
                {
                    services.Restore();
                    Task.Factory.StartNew(() => services.Compile("Core"), stop, TaskCreationOptions.AttachedToParent, TaskScheduler.Default);
                    Task.Factory.StartNew(() => services.Compile("Web"), stop, TaskCreationOptions.AttachedToParent, TaskScheduler.Default);
                },
                stop);
            var test = build.ContinueWith(_ => services.Test(), stop, TaskContinuationOptions.OnlyOnRanToCompletion, TaskScheduler.Default);
            var pack = test.ContinueWith(
                _ =>
                {
                    Task.Factory.StartNew(() => services.PackNuget(), TaskCreationOptions.AttachedToParent);
                    services.Sign();
                },
                TaskContinuationOptions.OnlyOnRanToCompletion);
            var publish = pack.ContinueWith(_ => services.Publish(), TaskContinuationOptions.OnlyOnRanToCompletion);
            var all = Task.WhenAll(build, test, pack, publish);
            return all.ContinueWith(t => services.Cleanup(t.Exception));
        }

        public async Task<int> Main()
        {
            using (var cts = new CancellationTokenSource())
            {
                Console.CancelKeyPress += (_, e) =>
                {
                    e.Cancel = true;
                    cts.Cancel();
                };
                var telemetry = await services.Start();
                try
                {
                    try
                    {
                        var config = await services.LoadConfig(cts.Token);
                        if (config.DryRun())
                        {
                            await services.PrintPlan();
                            return 0;
                        }
                        await services.Migrate(cts.Token);
                        await services.Seed(cts.Token);
                        return 0;
                    }
                    catch (OperationCanceledException)
                    {
                        return 130;
                    }
                    catch (Exception thrown)
                    {
                        await telemetry.Error(thrown);
                        return 1;
                    }
                    finally
                    {
                        await telemetry.Flush();
                    }
                }
                finally
                {
                    await telemetry.DisposeAsync();
                }
            }
        }

        public async Task<int> Approve(int id, CancellationToken ct)
        {
            var order = await services.Find(id, ct);
            if (order == null)
            {
                return 404;
            }
            if (order.IsApproved())
            {
                return 200;
            }
            var risk = await services.Score(order, ct);
            if (risk > 80)
            {
                await services.Queue(order, ct);
                return 202;
            }
            await services.Capture(order, ct);
            await services.Save(ct);
            await services.Announce(id);
            return 200;
        }

        private async Task<string> PostWithRetry(CancellationToken ct)
        {
            for (var attempt = 1; ; attempt++)
            {
                try
                {
                    return await services.Post(ct);
                }
                catch (HttpException thrown) when (attempt < 4 && thrown.Status >= 500)
                {
                    await Task.Delay(200, ct);
                }
            }
        }
    }
}
