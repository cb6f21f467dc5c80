using System;
using System.Collections.Generic;
using System.Linq;
using System.Threading;
using System.Threading.Tasks;
using Sample;
using static System.Threading.Tasks.TaskContinuationOptions;
using static System.Threading.Tasks.TaskStatus;

namespace TaskGraph.Tests
{
    /// <summary>Graphs as teams declare them, some of whose claims are false.</summary>
    internal static class Refuted
    {
        internal static readonly IReadOnlyDictionary<string, Func<TaskGraphBuilder>> All = new Dictionary<string, Func<TaskGraphBuilder>>
        {
            { "release", () => new Release().Graph() },
            { "import", Import },
            { "deploy", Deploy },
            { "deploy by hand", DeployByHand },
            { "refresh", Refresh },
            { "invoice", Invoice },
            { "invoice with a filter", Filtered },
            { "build", Build },
            { "main", MainMethod },
            { "approve", Approve },
        };

        private static Task Do(CancellationToken stop) => Task.Delay(1, stop);

        private static Task Do() => Task.Delay(1);

        private static Steps Call(string site, GraphToken stop) => new Steps().Work(site, stop, it => Do(it), mayFail: true);

        private static TaskGraphBuilder Import()
        {
            var g = new TaskGraphBuilder();
            GraphToken shutdown = g.Token("shutdown"), timeout = g.Token("timeout"), linked = g.Linked("linked", shutdown, timeout);
            GraphTask begin = g.Run("Begin", Call("begin", linked), linked);
            GraphTask[] copying = new[] { "Writer1", "Writer2", "Writer3", "Reader" }
                .Select(it => begin.ContinueWith(it, Call(it, linked), OnlyOnRanToCompletion, linked)).ToArray();
            GraphTask copied = g.WhenAll("Copied", copying);
            GraphTask commit = copied.ContinueWith("Commit", _ => Do(), OnlyOnRanToCompletion, mayFail: true);
            GraphTask tried = g.WhenAll("Tried", copied, commit);
            GraphTask failed = tried.ContinueWith("Failed", new Steps().Observe(), NotOnRanToCompletion);
            Steps back = new Steps().Cancel(linked).Work("rollback", () => Do(), mayFail: true).Throw("Rethrown");
            GraphTask rollback = g.WhenAll("Entered", begin, failed).ContinueWith("Rollback", back, OnlyOnRanToCompletion);
            GraphTask over = g.WhenAll("Left", tried, rollback).ContinueWith("Over", new Steps().Observe());
            GraphTask close = g.WhenAll("Held", begin, over).ContinueWith("Close", _ => Do(), OnlyOnRanToCompletion, mayFail: true);
            g.Claims.Named("no writer writes during the rollback").After(copying[0], rollback)
                .Named("not both commit and rollback").Excludes(commit, rollback)
                .Named("nobody cancels without shutdown or timeout")
                .Final(copying[3], g.Given.Quiet(shutdown, timeout), RanToCompletion, Faulted)
                .Named("closed after the rollback").After(rollback, close);
            return g;
        }

        private static TaskGraphBuilder Deploy()
        {
            var g = new TaskGraphBuilder();
            GraphToken stop = g.Token("stop");
            Steps back = new Steps().Work("rollback", stop, it => it.ThrowIfCancellationRequested(), mayFail: true);
            g.Method("Deploy")
                .Await("Lock", stop, it => Do(it), mayFail: true)
                .Try(outer => outer
                    .Await("Push", stop, it => Do(it), mayFail: true)
                    .Try(inner => inner
                        .Await("Switch", stop, it => Do(it), mayFail: true)
                        .Await("Smoke", stop, it => Do(it), mayFail: true))
                    .CatchAndRethrow("Rollback", back)
                    .Await("Retire", () => Do(), mayFail: true))
                .Finally("Unlock", () => Do(), mayFail: true)
                .AsTask();
            ClaimOfDeploy(g, g["Push"], g["Switch"], g["Rollback"]);
            return g;
        }

        private static TaskGraphBuilder DeployByHand()
        {
            var g = new TaskGraphBuilder();
            GraphToken stop = g.Token("stop");
            GraphTask locked = g.Run("Lock", Call("lock", stop), stop);
            GraphTask push = locked.ContinueWith("Push", Call("push", stop), OnlyOnRanToCompletion, stop);
            GraphTask switched = push.ContinueWith("Switch", Call("switch", stop), OnlyOnRanToCompletion, stop);
            GraphTask smoke = switched.ContinueWith("Smoke", Call("smoke", stop), OnlyOnRanToCompletion, stop);
            GraphTask tried = g.WhenAll("Switching", switched, smoke);
            GraphTask broken = tried.ContinueWith("Broken", new Steps().Observe(), NotOnRanToCompletion);
            Steps back = Call("rollback", stop).Throw("Rethrown");
            GraphTask rollback = g.WhenAll("Entered", push, broken).ContinueWith("Rollback", back, OnlyOnRanToCompletion, stop);
            GraphTask retire = tried.ContinueWith("Retire", _ => Do(), OnlyOnRanToCompletion, mayFail: true);
            GraphTask over = g.WhenAll("Deploying", push, tried, rollback, retire).ContinueWith("Over", new Steps().Observe());
            g.WhenAll("Held", locked, over).ContinueWith("Unlock", _ => Do(), OnlyOnRanToCompletion, mayFail: true);
            ClaimOfDeploy(g, push, switched, rollback);
            return g;
        }

        private static void ClaimOfDeploy(TaskGraphBuilder g, GraphTask push, GraphTask switched, GraphTask rollback)
        {
            Given canceled = g.Given.Ended(push, RanToCompletion).Ended(switched, Canceled);
            g.Claims.Named("a switch that fails is rolled back").Runs(rollback, g.Given.Ended(switched, Faulted))
                .Named("a switch that is canceled is rolled back").Runs(rollback, canceled)
                .Named("unlock always").Runs(g["Unlock"])
                .Named("unlock after the rollback").After(rollback, g["Unlock"])
                .Named("not both rollback and retire").Excludes(rollback, g["Retire"])
                .Named("a rollback isn't canceled").Final(rollback, g.Given.Ended(switched, Faulted), Faulted);
        }

        private static TaskGraphBuilder Refresh()
        {
            var g = new TaskGraphBuilder();
            GraphToken stop = g.Token("stop"), elapsed = g.Token("elapsed");
            GraphTask load = g.Run("Load", Call("load", stop), stop);
            Steps answering = new Steps().When(RanToCompletion, new Steps().Work("store", () => { }), new Steps().Observe().Throw("NoRefresh"));
            GraphTask fresh = load.ContinueWith("Fresh", answering, None, elapsed);
            GraphTask stale = fresh.ContinueWith("Stale", _ => { }, OnlyOnCanceled);
            g.Claims.Named("no exception is lost").Observed(load)
                .Named("stale only if the time is over").Never(stale, g.Given.Quiet(elapsed))
                .Named("the refresh is over before stale is answered").After(load, stale)
                .Named("a request that is aborted isn't answered stale").Never(stale, g.Given.Ended(load, Canceled));
            return g;
        }

        private static TaskGraphBuilder Invoice()
        {
            var g = new TaskGraphBuilder();
            g.Method("Invoice")
                .Try(it => it.Retry("Post", 4, attempt => Do()).Await("Mark", () => Do(), mayFail: true))
                .Catch("DeadLetter", e => Do(), mayFail: true)
                .AsTask();
            ClaimOfInvoice(g, "Post1", "Post4");
            return g;
        }

        private static TaskGraphBuilder Filtered()
        {
            var g = new TaskGraphBuilder();
            GraphToken stop = g.Token("stop");
            GraphTask last = g.Run("Post1", Call("post1", stop), stop);
            for (int attempt = 2; attempt <= 4; attempt++)
            {
                GraphInput again = g.Input("again" + attempt, true);
                Steps back = new Steps().Observe().If(again, Call("post" + attempt, stop), new Steps().Throw("NotTransient"));
                Steps body = new Steps().When(Faulted, back, new Steps().When(Canceled, new Steps().Check(stop)));
                last = last.ContinueWith("Post" + attempt, body, None, stop);
            }
            GraphTask mark = last.ContinueWith("Mark", Call("mark", stop), OnlyOnRanToCompletion, stop);
            GraphTask tried = g.WhenAll("Tried", last, mark);
            tried.ContinueWith("DeadLetter", new Steps().Observe().Work("dead_letter", () => Do(), mayFail: true), OnlyOnFaulted);
            ClaimOfInvoice(g, "post1", "post4");
            return g;
        }

        private static void ClaimOfInvoice(TaskGraphBuilder g, string first, string fourth)
        {
            g.Claims.Named("the last attempt fails: dead letter").Runs(g["DeadLetter"], g.Given.Ended(g["Post4"], Faulted))
                .Named("the first attempt succeeds: marked").Runs(g["Mark"], g.Given.NoRequest().Succeeds(first))
                .Named("what is posted isn't in the dead letters").Excludes(g["Mark"], g["DeadLetter"])
                .Named("the fourth attempt would succeed: marked").Runs(g["Mark"], g.Given.NoRequest().Succeeds(fourth))
                .Named("no exception of an attempt is lost").Observed(g["Post1"])
                .Named("one attempt after the other").After(g["Post1"], g["Post2"]);
        }

        private static TaskGraphBuilder Build()
        {
            var g = new TaskGraphBuilder();
            GraphToken stop = g.Token("stop");
            var building = new Steps().Work("restore", () => Thread.Sleep(0), mayFail: true);
            GraphTask build = g.Run("Build", building, stop);
            GraphTask test = build.ContinueWith("Test", _ => Thread.Sleep(0), OnlyOnRanToCompletion, stop, mayFail: true);
            var packing = new Steps();
            GraphTask pack = test.ContinueWith("Pack", packing, OnlyOnRanToCompletion);
            GraphTask publish = pack.ContinueWith("Publish", _ => Thread.Sleep(0), OnlyOnRanToCompletion, mayFail: true);
            g.WhenAll("All", build, test, pack, publish).ContinueWith("Cleanup", new Steps().Observe().Work("cleanup", () => { }));
            GraphTask core = g.Child("Core", () => Thread.Sleep(0), TaskCreationOptions.AttachedToParent, stop, mayFail: true);
            GraphTask nuget = g.Child("Nuget", () => Thread.Sleep(0), TaskCreationOptions.AttachedToParent, mayFail: true);
            building.Start(core);
            packing.Start(nuget).Work("sign", () => Thread.Sleep(0), mayFail: true);
            g.Claims.Named("compiled before tested").After(core, test)
                .Named("no compiler error is lost").Observed(core)
                .Named("packed before published").After(nuget, publish)
                .Named("what doesn't compile isn't published").Never(publish, g.Given.Ended(core, Faulted, Canceled))
                .Named("cleanup always").Runs(g["Cleanup"]);
            return g;
        }

        private static TaskGraphBuilder MainMethod()
        {
            var g = new TaskGraphBuilder();
            GraphToken stop = g.Token("ctrl_c");
            GraphInput dry = g.Input("dry_run");
            Steps plan = new Steps().Work("plan", () => Do(), mayFail: true);
            Steps planning = new Steps().If(dry, plan, Call("migrate", stop));
            g.Method("Main")
                .AwaitUsing("Start", () => Do(), "Dispose", () => Do(), mayFail: true, block: it => it
                    .Try(inner => inner
                        .Await("Load", stop, c => Do(c), mayFail: true)
                        .Await("PlanOrMigrate", planning, stop)
                        .Await("Seed", new Steps().If(dry, new Steps().Return()).Append(Call("seed", stop)), stop))
                    .Catch("Error", e => Do(), mayFail: true)
                    .Finally("Flush", () => Do(), mayFail: true))
                .AsTask();
            g.Claims.Named("what is started is disposed of").Runs(g["Dispose"], g.Given.Ended(g["Start"], RanToCompletion))
                .Named("flush before dispose").After(g["Flush"], g["Dispose"])
                .Named("flush always").Runs(g["Flush"])
                .Named("a canceled seed is no error").Never(g["Error"], g.Given.Ended(g["Seed"], Canceled))
                .Named("a dry run seeds nothing").Final(g["Seed"], g.Given.Input(dry, true).Succeeds("migrate"), RanToCompletion);
            return g;
        }

        private static TaskGraphBuilder Approve()
        {
            var g = new TaskGraphBuilder();
            GraphToken stop = g.Token("stop");
            GraphInput found = g.Input("found", true), approved = g.Input("approved"), high = g.Input("high_risk");
            GraphTask find = g.Run("Find", Call("find", stop), stop);
            Steps gating = new Steps().If(found, new Steps().If(approved, new Steps().Throw("ReturnOk")), new Steps().Throw("ReturnNotFound"));
            GraphTask gate = find.ContinueWith("Gate", gating, OnlyOnRanToCompletion);
            GraphTask score = gate.ContinueWith("Score", Call("score", stop), OnlyOnRanToCompletion, stop);
            GraphTask low = score.ContinueWith("Low", new Steps().If(high, new Steps().Throw("No")), OnlyOnRanToCompletion);
            GraphTask capture = low.ContinueWith("Capture", Call("capture", stop), OnlyOnRanToCompletion, stop);
            GraphTask save = capture.ContinueWith("Save", Call("save", stop), OnlyOnRanToCompletion, stop);
            GraphTask publish = save.ContinueWith("Publish", _ => Do(), OnlyOnRanToCompletion, mayFail: true);
            g.Claims.Named("high risk: no money is taken").Never(capture, g.Given.Input(high, true))
                .Named("captured: saved").Runs(save, g.Given.Ended(capture, RanToCompletion))
                .Named("not saved: not published").Never(publish, g.Given.Ended(save, Faulted, Canceled))
                .Named("captured: saved, if saving doesn't fail")
                .Final(save, g.Given.Ended(capture, RanToCompletion).Succeeds("save"), RanToCompletion)
                .Named("a good order is captured").Runs(capture, g.Given.NoFailure().NoRequest());
            return g;
        }
    }
}
