using System;
using System.IO;
using System.Threading;
using System.Threading.Tasks;
using Xunit;
using static System.Threading.Tasks.TaskContinuationOptions;
using static System.Threading.Tasks.TaskStatus;

namespace TaskGraph.Tests
{
    /// <summary>Code that makes its own tasks, watched: with results, with a token, and with a WhenAny.</summary>
    public class Watching
    {
        private const int LongestRun = 5000;
        private const int Answer = 42;

        [Fact]
        public void ResultsGoThrough()
        {
            var g = new TaskGraphBuilder();
            GraphTask load = g.Run("Load", () => { }, mayFail: true);
            GraphTask save = load.ContinueWith("Save", _ => { }, OnlyOnRanToCompletion);
            GraphRun run = g.Watch();
            Task<int> loading = run.Is(load, Task.Run(run.Body(load, it => it.Work(() => Answer))));
            Task<int> saving = run.Is(
                save, loading.ContinueWith(run.Next(save, it => it.Work(() => loading.Result + 1)), OnlyOnRanToCompletion));
            Demand(run);
            Assert.Equal(Answer + 1, saving.Result);
        }

        [Fact]
        public void ResultsOfAsyncMethodsGoThrough()
        {
            var g = new TaskGraphBuilder();
            GraphTask load = g.Run("Load", () => Task.Delay(0), mayFail: true);
            GraphTask save = load.ContinueWith("Save", _ => Task.Delay(0), OnlyOnRanToCompletion);
            GraphRun run = g.Watch();
            Task<int> loading = run.Is(load, Task.Run(run.BodyAsync(load, it => it.WorkAsync(() => Later(Answer)))));
            Func<Task, Task<int>> body = run.NextAsync(save, it => it.WorkAsync(() => Later(loading.Result + 1)));
            Task<int> saving = run.Is(save, loading.ContinueWith(body, OnlyOnRanToCompletion).Unwrap());
            Demand(run);
            Assert.Equal(Answer + 1, saving.Result);
        }

        // a continuation that is never made, since what it would continue has failed, is no missing task
        [Fact]
        public void WhatIsNotReachedIsNotMissed()
        {
            var g = new TaskGraphBuilder();
            GraphTask load = g.Run("Load", () => { }, mayFail: true);
            GraphTask save = load.ContinueWith("Save", _ => { }, OnlyOnRanToCompletion);
            save.ContinueWith("Send", _ => { }, OnlyOnRanToCompletion);
            GraphRun run = g.Watch();
            Action failing = () => throw new InvalidOperationException();
            run.Is(load, Task.Run(run.Body(load, it => it.Work(failing))));
            Demand(run);
            Assert.Equal(Canceled, run.EndOf(g["Send"]).Value);
        }

        // the job stops by its token: Canceled, and not Faulted
        [Fact]
        public void AJobStopsByItsToken()
        {
            TaskGraphBuilder g = Stoppable(out GraphToken stop);
            GraphRun run = g.Watch();
            run.Is(g["Get"], Task.Run(run.Body(g["Get"], it => it.Work(stop, token => StopAndThrow(stop, token))), stop));
            Demand(run);
            Assert.Equal(Canceled, run.EndOf(g["Get"]).Value);
        }

        [Fact]
        public void AnAwaitedJobStopsByItsToken()
        {
            TaskGraphBuilder g = Stoppable(out GraphToken stop);
            GraphRun run = g.Watch();
            Func<Task> body = run.BodyAsync(g["Get"], it => it.WorkAsync(stop, token => StopAndThrowLater(stop, token)));
            run.Is(g["Get"], Task.Run(body, stop));
            Demand(run);
            Assert.Equal(Canceled, run.EndOf(g["Get"]).Value);
        }

        // another exception is a failure, whatever the token is
        [Fact]
        public void AJobWithATokenFails()
        {
            TaskGraphBuilder g = Stoppable(out GraphToken stop);
            GraphRun run = g.Watch();
            run.Is(g["Get"], Task.Run(run.Body(g["Get"], it => it.Work(stop, _ => Fail())), stop));
            Demand(run);
            Assert.Equal(Faulted, run.EndOf(g["Get"]).Value);
        }

        // of a WhenAny it is the winner's exception that is read
        [Fact]
        public void TheWinnersExceptionIsRead()
        {
            TaskGraphBuilder g = Racing();
            GraphRun run = g.Watch();
            var release = new ManualResetEventSlim();
            Task first = run.Is(g["First"], Task.Run(run.Body(g["First"], it => it.Work((Action)Fail))));
            Task second = run.Is(g["Second"], Task.Run(run.Body(g["Second"], it => it.Work(() => release.Wait()))));
            Task<Task> any = run.Is(g["Any"], Task.WhenAny(first, second));
            AggregateException read = null;
            run.Is(g["Look"], any.ContinueWith(run.Next(g["Look"], it => { read = it.Observe(); release.Set(); })));
            Demand(run);
            Assert.True(read != null && read.InnerException is IOException);
        }

        [Fact]
        public void TheExceptionOfAWinnerWithAResultIsRead()
        {
            TaskGraphBuilder g = Racing();
            GraphRun run = g.Watch();
            var release = new ManualResetEventSlim();
            Task<int> first = run.Is(g["First"], Task.Run(run.Body(g["First"], it => it.Work((Func<int>)FailWithResult))));
            Task<int> second = run.Is(g["Second"], Task.Run(run.Body(g["Second"], it => it.Work(() => { release.Wait(); return 0; }))));
            Task<Task<int>> any = run.Is(g["Any"], Task.WhenAny(first, second));
            AggregateException read = null;
            run.Is(g["Look"], any.ContinueWith(run.Next(g["Look"], it => { read = it.Observe(); release.Set(); })));
            Demand(run);
            Assert.True(read != null && read.InnerException is IOException);
        }

        // declared as a WhenAny, and made as a WhenAll
        [Fact]
        public void AWhenAllIsNoWhenAny()
        {
            TaskGraphBuilder g = Racing();
            GraphRun run = g.Watch();
            Task first = run.Is(g["First"], Task.Run(run.Body(g["First"], it => it.Work(() => { }))));
            Task second = run.Is(g["Second"], Task.Run(run.Body(g["Second"], it => it.Work(() => { }))));
            Task all = run.Is(g["Any"], Task.WhenAll(first, second));
            run.Is(g["Look"], all.ContinueWith(run.Next(g["Look"], it => { it.Observe(); })));
            Assert.True(run.Wait(LongestRun));
            var wrong = Assert.Throws<TaskGraphException>(() => run.Audit());
            Assert.StartsWith("no journal says what happened: ", wrong.Message);
        }

        private static void Demand(GraphRun run)
        {
            Assert.True(run.Wait(LongestRun));
            run.Audit();
        }

        private static TaskGraphBuilder Stoppable(out GraphToken stop)
        {
            var g = new TaskGraphBuilder();
            stop = g.Token("stop");
            g.Run("Get", new Steps().Work("get", stop, _ => { }, mayFail: true), stop);
            return g;
        }

        private static TaskGraphBuilder Racing()
        {
            var g = new TaskGraphBuilder();
            GraphTask first = g.Run("First", () => { }, mayFail: true);
            GraphTask second = g.Run("Second", () => { }, mayFail: true);
            g.WhenAny("Any", first, second).ContinueWith("Look", new Steps().Observe());
            return g;
        }

        private static void StopAndThrow(GraphToken stop, CancellationToken token)
        {
            stop.Source.Cancel();
            token.ThrowIfCancellationRequested();
        }

        private static async Task StopAndThrowLater(GraphToken stop, CancellationToken token)
        {
            await Task.Yield();
            StopAndThrow(stop, token);
        }

        private static async Task<int> Later(int result)
        {
            await Task.Yield();
            return result;
        }

        private static int FailWithResult()
        {
            throw new IOException();
        }

        private static void Fail()
        {
            throw new IOException();
        }
    }
}
