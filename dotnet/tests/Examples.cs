using System;
using System.Collections.Generic;
using System.Linq;
using System.Threading.Tasks;
using static System.Threading.Tasks.TaskContinuationOptions;
using static System.Threading.Tasks.TaskStatus;

namespace TaskGraph.Tests
{
    /// <summary>The pipelines of the folder examples, and the last one of docs/FROM-CSHARP.md, declared as a team would.</summary>
    internal static class Examples
    {
        private const int Shards = 24;

        internal static readonly IReadOnlyDictionary<string, Func<TaskGraphBuilder>> All = new Dictionary<string, Func<TaskGraphBuilder>>
        {
            { "one-root", OneRoot },
            { "either-or", EitherOr },
            { "blue-green-wrong", BlueGreenWrong },
            { "exactly-one", () => ExactlyOne(false) },
            { "exactly-one-broken", () => ExactlyOne(true) },
            { "build-with-stop", BuildWithStop },
            { "shutdown-eager", () => Shutdown(None) },
            { "shutdown-lazy", () => Shutdown(LazyCancellation) },
            { "etl-mirrors", EtlMirrors },
            { "detached-lost", () => RequestWithAudit(TaskCreationOptions.None) },
            { "attached-kept", () => RequestWithAudit(TaskCreationOptions.AttachedToParent) },
            { "deny-child-attach", DenyChildAttach },
            { "join-by-any", () => Join(true) },
            { "join-by-all", () => Join(false) },
            { "saga", Saga },
            { "stop-for-good", StopForGood },
            { "first-answer", FirstAnswer },
            { "try-catch-finally", TryCatchFinally },
            { "finally-too-early", FinallyTooEarly },
            { "from-csharp 17", FromCSharpMethod },
            { "pipeline", Pipeline },
        };

        private static readonly Action Job = Jobs.Busy;

        private static Steps Working(string site) => new Steps().Work(site, Job);

        private static Steps MayFail(string site) => new Steps().Work(site, Job, mayFail: true);

        private static Steps Nothing() => new Steps().Return();

        private static Steps Reading() => new Steps().Observe();

        private static TaskGraphBuilder OneRoot()
        {
            var g = new TaskGraphBuilder();
            var a = g.StartNew("A", Nothing());
            g.Claims.Final(a, RanToCompletion);
            return g;
        }

        private static TaskGraphBuilder EitherOr()
        {
            var g = new TaskGraphBuilder();
            var fetch = g.StartNew("Fetch", MayFail("download"));
            var repair = fetch.ContinueWith("Repair", Nothing(), OnlyOnFaulted);
            var publish = fetch.ContinueWith("Publish", Nothing(), OnlyOnRanToCompletion);
            g.Claims.Excludes(repair, publish);
            return g;
        }

        private static TaskGraphBuilder BlueGreenWrong()
        {
            var g = new TaskGraphBuilder();
            var dryRun = g.Input("dry_run");
            var deploy = g.StartNew("DeployGreen", MayFail("deploy"));
            var smoke = deploy.ContinueWith("Smoke", MayFail("smoke"), OnlyOnRanToCompletion);
            var switching = new Steps().If(dryRun, new Steps().Throw("DryRun")).Work("switch", Job, mayFail: true);
            var sw = smoke.ContinueWith("Switch", switching, OnlyOnRanToCompletion);
            var release = g.WhenAll("Release", deploy, smoke, sw);
            var rollback = sw.ContinueWith("Rollback", Working("rollback"), OnlyOnFaulted);
            release.ContinueWith("Notify", Reading(), OnlyOnFaulted);
            var retire = release.ContinueWith("RetireBlue", Working("retire"), OnlyOnRanToCompletion);
            g.Claims.Excludes(rollback, retire)
                .Named("a release that succeeds retires the old version").Ended(release, RanToCompletion).Runs(retire);
            return g;
        }

        private static TaskGraphBuilder ExactlyOne(bool withToken)
        {
            var g = new TaskGraphBuilder();
            var dryRun = g.Input("dry_run");
            var stop = withToken ? g.Token("stop") : null;
            var deploy = g.StartNew("DeployGreen", MayFail("deploy"), token: stop);
            var smoke = deploy.ContinueWith("Smoke", MayFail("smoke"), OnlyOnRanToCompletion);
            var switching = new Steps().If(dryRun, new Steps().Throw("DryRun")).Work("switch", Job, mayFail: true);
            var sw = smoke.ContinueWith("Switch", switching, OnlyOnRanToCompletion);
            var release = g.WhenAll("Release", deploy, smoke, sw);
            var rollback = release.ContinueWith("Rollback", Working("rollback"), OnlyOnFaulted);
            release.ContinueWith("Notify", Reading(), OnlyOnFaulted);
            var retire = release.ContinueWith("RetireBlue", Working("retire"), OnlyOnRanToCompletion);
            g.Claims.Named("not both").Excludes(rollback, retire);
            if (withToken)
            {
                g.Claims.Named("one of them, unless somebody stops").NoRequest().Ended(rollback, Canceled).Runs(retire);
            }
            else
            {
                g.Claims.Named("one of them").Ended(rollback, Canceled).Runs(retire)
                    .Claims.Final(rollback, RanToCompletion, Canceled).Final(retire, RanToCompletion, Canceled);
            }
            return g;
        }

        private static TaskGraphBuilder BuildWithStop()
        {
            var g = new TaskGraphBuilder();
            var stop = g.Token("stop");
            Func<GraphTask, string, string, GraphTask> then =
                (before, name, site) => before.ContinueWith(name, MayFail(site), OnlyOnRanToCompletion, stop);
            var restore = g.StartNew("Restore", MayFail("restore"), token: stop);
            var core = then(restore, "Core", "c_core");
            var data = then(core, "Data", "c_data");
            var api = then(core, "Api", "c_api");
            var cli = then(core, "Cli", "c_cli");
            var tools = then(core, "Tools", "c_tools");
            var web = then(g.WhenAll("WebDeps", data, api), "Web", "c_web");
            var test = then(g.WhenAll("Compiled", web, cli, tools), "Test", "test");
            var pack = then(test, "Pack", "pack");
            var publish = then(pack, "Publish", "publish");
            var done = g.WhenAll("Done", restore, core, data, api, cli, web, tools, test, pack, publish);
            var cleanup = done.ContinueWith("Cleanup", new Steps().Observe().Work("cleanup", Job));
            var report = done.ContinueWith("Report", Working("report"), OnlyOnFaulted, stop);
            var announce = done.ContinueWith("Announce", Nothing(), OnlyOnRanToCompletion, stop);
            g.Claims.After(restore, cleanup).After(publish, cleanup).Final(cleanup, RanToCompletion).Observed(restore).Observed(publish)
                .Excludes(report, announce).After(test, publish).After(web, publish).After(core, publish).After(restore, publish)
                .Quiet(stop).After(restore, publish).Claims.After(restore, report);
            return g;
        }

        private static TaskGraphBuilder Shutdown(TaskContinuationOptions draining)
        {
            var g = new TaskGraphBuilder();
            var stop = g.Token("stop");
            foreach (string service in new[] { "Http", "Queue", "Timer" })
            {
                string site = service.ToLowerInvariant();
                var serving = new Steps().Check(stop).Work("serve_" + site, Job, mayFail: true);
                g.StartNew(service, serving, token: stop)
                    .ContinueWith("Drain" + service, MayFail("drain_" + site), draining, stop)
                    .ContinueWith("Close" + service, Working("close_" + site));
            }
            var exit = g.WhenAll("Closed", g["CloseHttp"], g["CloseQueue"], g["CloseTimer"]).ContinueWith("Exit", Nothing());
            if (draining == LazyCancellation)
            {
                g.Claims.After(g["Http"], g["CloseHttp"]).After(g["Http"], exit).After(g["Timer"], exit);
            }
            else
            {
                g.Claims.After(g["DrainHttp"], g["CloseHttp"]).After(g["CloseHttp"], exit).Final(exit, RanToCompletion)
                    .Final(g["CloseHttp"], RanToCompletion).Quiet(stop).After(g["Http"], g["CloseHttp"])
                    .Claims.Quiet(stop).After(g["Http"], exit);
            }
            return g;
        }

        private static TaskGraphBuilder EtlMirrors()
        {
            var g = new TaskGraphBuilder();
            var user = g.Token("user");
            var timeout = g.Token("timeout");
            var both = g.Linked("both", user, timeout);
            Func<string, Steps> get = site => new Steps().Check(both).Work(site, Job, mayFail: true).Check(both);
            var a = g.StartNew("MirrorA", get("get_a"), token: both);
            var b = g.StartNew("MirrorB", get("get_b"), token: both);
            var first = g.WhenAny("First", a, b);
            var parsing = new Steps().When(Faulted, new Steps().Observe().Throw("NoMirror")).When(Canceled, new Steps().Throw("TimedOut"));
            var parse = first.ContinueWith("Parse", parsing.Work("parse", Job, mayFail: true));
            Func<int, GraphTask> part = it => parse.ContinueWith("T" + it, MayFail("t" + it), OnlyOnRanToCompletion);
            var parts = Enumerable.Range(1, 3).Select(part).ToArray();
            var loaded = g.WhenAll("Loaded", parts);
            var commit = loaded.ContinueWith("Commit", Working("commit"), OnlyOnRanToCompletion);
            var abort = loaded.ContinueWith("Abort", Working("abort"), NotOnRanToCompletion);
            var everything = g.WhenAll("Everything", a, b, parse, parts[0], parts[1], parts[2], commit, abort);
            var clean = everything.ContinueWith("Cleanup", Reading());
            g.Claims.Excludes(commit, abort).Final(first, RanToCompletion).After(parse, commit).After(a, clean).Observed(a)
                .Observed(parts[1]).Observed(parse).Quiet(both).Final(a, RanToCompletion, Faulted).Claims.Final(clean, RanToCompletion);
            return g;
        }

        private static TaskGraphBuilder RequestWithAudit(TaskCreationOptions auditing)
        {
            var g = new TaskGraphBuilder();
            var handling = new Steps();
            var request = g.StartNew("Request", handling);
            var audit = g.Child("Audit", MayFail("audit"), auditing);
            handling.Start(audit).Work("handle", Job, mayFail: true);
            var reply = request.ContinueWith("Reply", Reading());
            var dispose = g.WhenAll("Both", request, reply).ContinueWith("Dispose", Nothing());
            if (auditing == TaskCreationOptions.None)
            {
                g.Claims.Observed(request).After(request, dispose).Final(reply, RanToCompletion);
            }
            else
            {
                g.Claims.Observed(audit).After(audit, dispose).Final(request, RanToCompletion, Faulted);
            }
            return g;
        }

        private static TaskGraphBuilder DenyChildAttach()
        {
            const TaskCreationOptions attached = TaskCreationOptions.AttachedToParent;
            var g = new TaskGraphBuilder();
            var importing = new Steps();
            var ordering = new Steps();
            var import = g.Run("Import", importing);
            var users = g.Child("Users", MayFail("imp_users"), attached);
            var orders = g.Child("Orders", ordering, attached);
            var items = g.Child("Items", MayFail("imp_items"), attached);
            var audit = g.Child("Audit", MayFail("audit"), attached);
            importing.Start(users).Start(orders).Start(items).Work("index", Job, mayFail: true);
            ordering.Work("imp_orders", Job, mayFail: true).Start(audit);
            var clean = import.ContinueWith("Cleanup", Reading());
            var commit = import.ContinueWith("Commit", Working("commit"), OnlyOnRanToCompletion);
            var undo = import.ContinueWith("Undo", Working("undo"), OnlyOnFaulted);
            g.Claims.Final(clean, RanToCompletion).Excludes(commit, undo);
            return g;
        }

        private static TaskGraphBuilder Join(bool byAny)
        {
            var g = new TaskGraphBuilder();
            var job = g.StartNew("Job", MayFail("job"));
            var fix = job.ContinueWith("Fix", new Steps().Observe().Work("fix", Job), OnlyOnFaulted);
            var go = job.ContinueWith("Go", Working("go"), NotOnFaulted);
            var join = byAny ? g.WhenAny("Join", fix, go) : g.WhenAll("Join", fix, go);
            var next = join.ContinueWith("Next", Nothing());
            g.Claims.Excludes(fix, go);
            if (byAny)
            {
                g.Claims.After(job, next);
            }
            else
            {
                g.Claims.After(fix, next).After(go, next).Final(next, RanToCompletion).Final(join, Canceled).Observed(job);
            }
            return g;
        }

        private static TaskGraphBuilder Saga()
        {
            var g = new TaskGraphBuilder();
            var reserve = g.StartNew("Reserve", MayFail("reserve"));
            var charge = reserve.ContinueWith("Charge", MayFail("charge"), OnlyOnRanToCompletion);
            var ship = charge.ContinueWith("Ship", MayFail("ship"), OnlyOnRanToCompletion);
            var confirm = ship.ContinueWith("Confirm", Working("confirm"), OnlyOnRanToCompletion);
            var refund = ship.ContinueWith("Refund", new Steps().Observe().Work("refund", Job), OnlyOnFaulted);
            var failed = charge.ContinueWith("ChargeFailed", new Steps().Observe().Return(), OnlyOnFaulted);
            var ended = g.WhenAll("Ended", confirm, refund, failed);
            var unreserved = reserve.ContinueWith("ReserveFailed", Reading(), OnlyOnFaulted);
            var close = ended.ContinueWith("Close", Working("close"));
            g.Claims.Excludes(confirm, refund)
                .Named("refund only what was charged").Ended(charge, Canceled, Faulted).Never(refund)
                .Claims.Excludes(refund, failed).Excludes(confirm, unreserved)
                .After(charge, refund).Observed(reserve).Observed(charge).Observed(ship).Final(close, RanToCompletion)
                .Final(refund, RanToCompletion, Canceled).After(refund, close).Final(ended, Canceled)
                .Named("confirmed if nothing fails").NoFailure().Runs(confirm);
            return g;
        }

        private static TaskGraphBuilder StopForGood()
        {
            var g = new TaskGraphBuilder();
            var stop = g.Token("stop");
            var serve = g.StartNew("Serve", Working("serve").Cancel(stop));
            var retry = serve.ContinueWith("Retry", Working("retry"), None, stop);
            var report = retry.ContinueWith("Report", Working("report"), OnlyOnCanceled);
            g.Claims.Named("no retry").Final(retry, Canceled).Named("always a report").Runs(report);
            return g;
        }

        private static TaskGraphBuilder FirstAnswer()
        {
            var g = new TaskGraphBuilder();
            var cache = g.StartNew("Cache", Working("read_cache"));
            var server = g.StartNew("Server", MayFail("ask_server"));
            var failing = new Steps().Observe();
            g.WhenAny("First", cache, server).ContinueWith("Show", new Steps().When(Faulted, failing, Working("show")));
            var apologize = g.Child("Apologize", Working("apologize"), TaskCreationOptions.AttachedToParent);
            failing.Start(apologize);
            g.Claims.Named("no apology for a server that hasn't answered").After(server, apologize);
            return g;
        }

        private static TaskGraphBuilder TryCatchFinally()
        {
            var g = new TaskGraphBuilder();
            g.Method("Handle")
                .Try(it => it.Await("Load", MayFail("load")).Await("Save", MayFail("save")))
                .CatchAndRethrow("Catch", new Steps().Work("log", Job))
                .Finally("Close", Working("close"))
                .Await("Return", Nothing());
            g.Claims.After(g["Save"], g["Close"]).After(g["Catch"], g["Close"]).Observed(g["Load"]).Observed(g["Save"])
                .Final(g["Close"], RanToCompletion).Excludes(g["Catch"], g["Return"]).After(g["Close"], g["Return"])
                .After(g["Load"], g["Save"]).Final(g["Try"], RanToCompletion, Faulted);
            return g;
        }

        private static TaskGraphBuilder FromCSharpMethod()
        {
            var g = new TaskGraphBuilder();
            g.Method("Handle")
                .Try(it => it.Await("Load", MayFail("load")).Await("Save", MayFail("save")))
                .Catch("Catch", new Steps().Work("log", Job))
                .Finally("Close", Working("close"));
            g.Claims.After(g["Load"], g["Save"]).After(g["Catch"], g["Close"]).Observed(g["Load"]).Observed(g["Save"])
                .Final(g["Close"], RanToCompletion);
            return g;
        }

        private static TaskGraphBuilder FinallyTooEarly()
        {
            var g = new TaskGraphBuilder();
            var load = g.Run("Load", MayFail("load"));
            var save = load.ContinueWith("Save", MayFail("save"), OnlyOnRanToCompletion);
            var tried = g.WhenAll("Try", load, save);
            tried.ContinueWith("Catch", new Steps().Observe().Work("log", Job), OnlyOnFaulted);
            var close = tried.ContinueWith("Close", Working("close"));
            g.WhenAll("Finished", tried, close).ContinueWith("Return", Nothing(), OnlyOnRanToCompletion);
            g.Claims.After(save, close).Final(close, RanToCompletion);
            return g;
        }

        private static TaskGraphBuilder Pipeline()
        {
            var g = new TaskGraphBuilder();
            var reads = new GraphTask[Shards];
            var stores = new GraphTask[Shards];
            for (int shard = 0; shard < Shards; shard++)
            {
                int number = shard + 1;
                reads[shard] = g.StartNew("Read" + number, MayFail("read" + number));
                stores[shard] = reads[shard].ContinueWith("Parse" + number, Nothing(), OnlyOnRanToCompletion)
                    .ContinueWith("Sort" + number, Nothing(), OnlyOnRanToCompletion)
                    .ContinueWith("Store" + number, Nothing(), OnlyOnRanToCompletion);
            }
            var allRead = g.WhenAll("AllRead", reads);
            var log = allRead.ContinueWith("Log", Reading());
            var loaded = g.WhenAll("Loaded", allRead, g.WhenAll("AllStored", stores));
            var commit = loaded.ContinueWith("Commit", Working("commit"), OnlyOnRanToCompletion);
            var abort = loaded.ContinueWith("Abort", Working("abort"), NotOnRanToCompletion);
            var clean = g.WhenAll("Ended", log, commit, abort).ContinueWith("Cleanup", Working("cleanup"));
            g.Claims.Excludes(commit, abort).After(stores[Shards - 1], commit).After(reads[0], clean).Observed(reads[Shards - 1])
                .Final(clean, RanToCompletion).Final(log, RanToCompletion);
            return g;
        }
    }
}
