using System;
using System.Threading;
using System.Threading.Tasks;
using TaskGraph;
using static System.Threading.Tasks.TaskContinuationOptions;
using static System.Threading.Tasks.TaskStatus;

namespace Sample
{
    /// <summary>A release as a team may have it: deploy, test, switch; roll back where it failed, and tell the team.</summary>
    public class Release
    {
        // the method as it was written, with the mistake that the first page tells of
        public Task Start()
        {
            var deploy  = Task.Run(() => DeployGreen());
            var smoke   = deploy.ContinueWith(_ => Smoke(), OnlyOnRanToCompletion);
            var sw      = smoke.ContinueWith(_ => Switch(), OnlyOnRanToCompletion);
            var release = Task.WhenAll(deploy, smoke, sw);
            sw.ContinueWith(_ => Rollback(), OnlyOnFaulted);
            release.ContinueWith(t => Notify(t.Exception), OnlyOnFaulted);
            return release;
        }

        // declared, certified, run and audited
        public void First()
        {
            var g = new TaskGraphBuilder();
            var deploy   = g.Run("Deploy", () => DeployGreen(), mayFail: true);
            var smoke    = deploy.ContinueWith("Smoke", _ => Smoke(), OnlyOnRanToCompletion, mayFail: true);
            var sw       = smoke.ContinueWith("Switch", _ => Switch(), OnlyOnRanToCompletion, mayFail: true);
            var release  = g.WhenAll("Release", deploy, smoke, sw);
            var rollback = release.ContinueWith("Rollback", _ => Rollback(), OnlyOnFaulted);
            var retire   = release.ContinueWith("RetireBlue", _ => RetireBlue(), OnlyOnRanToCompletion);
            g.Claims.Excludes(rollback, retire).After(sw, rollback);
            g.Certify();                                     // a certificate that the claims hold in every run, or it throws
            var run = g.Start(); run.Wait(); run.Audit();    // the real tasks; it throws if this was no run of the graph
        }

        // the same, declared
        public TaskGraphBuilder Graph()
        {
            var g = new TaskGraphBuilder();
            var deploy   = g.Run("Deploy", () => DeployGreen(), mayFail: true);
            var smoke    = deploy.ContinueWith("Smoke", _ => Smoke(), OnlyOnRanToCompletion, mayFail: true);
            var sw       = smoke.ContinueWith("Switch", _ => Switch(), OnlyOnRanToCompletion, mayFail: true);
            var release  = g.WhenAll("Release", deploy, smoke, sw);
            var rollback = sw.ContinueWith("Rollback", _ => Rollback(), OnlyOnFaulted);
            var notify   = release.ContinueWith("Notify", new Steps().Observe().Work("notify", t => Notify(t.Exception)), OnlyOnFaulted);
            // runs where nothing is rolled back
            var none     = rollback.ContinueWith("NoRollback", new Steps(), OnlyOnCanceled);
            g.Claims.Excludes(none, notify);
            return g;
        }

        // repaired: the rollback follows the whole release
        public TaskGraphBuilder Repaired()
        {
            var g = new TaskGraphBuilder();
            var deploy   = g.Run("Deploy", () => DeployGreen(), mayFail: true);
            var smoke    = deploy.ContinueWith("Smoke", _ => Smoke(), OnlyOnRanToCompletion, mayFail: true);
            var sw       = smoke.ContinueWith("Switch", _ => Switch(), OnlyOnRanToCompletion, mayFail: true);
            var release  = g.WhenAll("Release", deploy, smoke, sw);
            var rollback = release.ContinueWith("Rollback", _ => Rollback(), OnlyOnFaulted);
            var notify   = release.ContinueWith("Notify", new Steps().Observe().Work("notify", t => Notify(t.Exception)), OnlyOnFaulted);
            var none     = rollback.ContinueWith("NoRollback", new Steps(), OnlyOnCanceled);
            g.Claims.Excludes(none, notify).After(sw, rollback).Observed(smoke).Final(rollback, RanToCompletion, Canceled);
            return g;
        }

        // with a token that comes from outside, and an awaited job
        public TaskGraphBuilder Stoppable(CancellationToken stopping)
        {
            var g = new TaskGraphBuilder();
            var stop     = g.Token("stop", stopping);
            var deploy   = g.Run("Deploy", () => DeployGreen(), mayFail: true);
            var probing  = new Steps().Work("probe", stop, ct => Probe(ct), mayFail: true);
            var smoke    = deploy.ContinueWith("Smoke", probing, OnlyOnRanToCompletion, stop);
            var release  = g.WhenAll("Release", deploy, smoke);
            var rollback = release.ContinueWith("Rollback", _ => Rollback(), NotOnRanToCompletion);
            release.ContinueWith("Notify", new Steps().Observe().Work("notify", t => Notify(t.Exception)), OnlyOnFaulted);
            g.Claims.After(smoke, rollback).Final(rollback, RanToCompletion, Canceled);
            g.Claims.Final(deploy, g.Given.Quiet(stop), RanToCompletion, Faulted).Observed(deploy);
            return g;
        }

        // the code as it stands, watched, against the declaration that the team believes
        public GraphRun Watched(TaskGraphBuilder g, bool isRepaired)
        {
            GraphRun run = g.Watch();
            var deploy  = run.Is(g["Deploy"], Task.Run(run.Body(g["Deploy"], it => it.Work(DeployGreen))));
            var smoke   = run.Is(g["Smoke"], deploy.ContinueWith(run.Next(g["Smoke"], it => it.Work(Smoke)), OnlyOnRanToCompletion));
            var sw      = run.Is(g["Switch"], smoke.ContinueWith(run.Next(g["Switch"], it => it.Work(Switch)), OnlyOnRanToCompletion));
            var release = run.Is(g["Release"], Task.WhenAll(deploy, smoke, sw));
            var last    = isRepaired ? release : sw;
            var back    = run.Is(g["Rollback"], last.ContinueWith(run.Next(g["Rollback"], it => it.Work(Rollback)), OnlyOnFaulted));
            run.Is(g["Notify"], release.ContinueWith(run.Next(g["Notify"], it => Tell(it)), OnlyOnFaulted));
            run.Is(g["NoRollback"], back.ContinueWith(run.Next(g["NoRollback"], it => { }), OnlyOnCanceled));
            return run;
        }

        // code with awaits, watched
        public GraphRun WatchedProbe(CancellationToken stopping)
        {
            var g = new TaskGraphBuilder();
            var deploy = g.Run("Deploy", () => DeployGreen(), mayFail: true);
            var probe  = deploy.ContinueWith("Probe", _ => Probe(stopping), OnlyOnRanToCompletion, mayFail: true);
            GraphRun run = g.Watch();
            var realDeploy = run.Is(deploy, Task.Run(run.Body(deploy, it => it.Work(DeployGreen))));
            Func<Task, Task> probing = run.NextAsync(probe, it => it.WorkAsync(() => Probe(stopping)));
            run.Is(probe, realDeploy.ContinueWith(probing, OnlyOnRanToCompletion).Unwrap());
            return run;
        }

        public virtual void DeployGreen()
        {
            Thread.Sleep(1);
        }

        public virtual void Smoke()
        {
        }

        public virtual Task Probe(CancellationToken stopping) => Task.Delay(1, stopping);

        public virtual void Switch()
        {
        }

        public virtual void RetireBlue()
        {
        }

        public virtual void Rollback()
        {
        }

        public virtual void Notify(AggregateException failed)
        {
        }

        private void Tell(WatchedBody body)
        {
            AggregateException failed = body.Observe();
            body.Work(() => Notify(failed));
        }
    }
}
