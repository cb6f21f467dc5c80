using System;
using System.Collections.Generic;
using System.IO;
using System.Threading;
using System.Threading.Tasks;

namespace TaskGraph.Tests
{
    /// <summary>Wrong declarations, each with words that the refusal has to have.</summary>
    internal static class Refusals
    {
        private sealed class Case
        {
            internal string Which;
            internal string Expected;
            internal Action<TaskGraphBuilder> Wrong;
        }

        private const TaskContinuationOptions Excluding = TaskContinuationOptions.OnlyOnFaulted | TaskContinuationOptions.OnlyOnCanceled;
        private const TaskContinuationOptions LongAndSync =
            TaskContinuationOptions.LongRunning | TaskContinuationOptions.ExecuteSynchronously;

        private static readonly IReadOnlyList<Case> All = new[]
        {
            Of("a name with a space", "give another one", g => g.Run("two words", Nothing)),
            Of("a name of 33 letters", "1 to 32", g => g.Run(new string('a', 33), Nothing)),
            Of("two tasks of one name", "give one another name", g => { g.Run("A", Nothing); g.Run("A", Nothing); }),
            Of("two jobs of one site", "another site in Work", g => { g.Run("A", Job("x")); g.Run("B", Job("x")); g.ToJson(); }),
            Of("an option of continuations", "make it by ContinueWith", g => g.StartNew("A", Nothing, (TaskCreationOptions)0x20000)),
            Of("options that exclude each end", "two tasks by ContinueWith", g => g.Run("A", Nothing).ContinueWith("B", Ignore, Excluding)),
            Of("LongRunning and synchronous", "choose one", g => g.Run("A", Nothing).ContinueWith("B", Ignore, LongAndSync)),
            Of("WhenAny of nothing", "a task at least", g => g.WhenAny("Any")),
            Of("a continuation of a child", "wait for the child's parent", g => g.Child("C", Nothing).ContinueWith("D", _ => { })),
            Of("a child that nobody starts", "add Start", g => { g.Child("C", Nothing); g.ToJson(); }),
            Of("a start of a root", "make the task by Child", g => new Steps().Start(g.Run("A", Nothing))),
            Of("a child that is started twice", "declare another Child", StartTwice),
            Of("a cancel of a foreign token", "Token(name, source)", g => new Steps().Cancel(g.Token("t", CancellationToken.None))),
            Of("two tokens of one source", "use the GraphToken that stands", TakeSourceTwice),
            Of("a link without sources", "use Token(name)", g => g.Linked("l")),
            Of("a foreign check in an async body", "Give the task that token", CheckForeign),
            Of("When for no end", "RanToCompletion, Canceled or Faulted", g => new Steps().When(TaskStatus.Running, Job("x"))),
            Of("Observe in a root", "make it by ContinueWith", g => { g.Run("A", new Steps().Observe()); g.ToJson(); }),
            Of("When in a branch of a root", "make it by ContinueWith", LookInRoot),
            Of("a job that is null", "job", g => g.Run("A", (Action)null)),
            Of("a WhenAll over null", "task", g => g.WhenAll("All", new GraphTask[] { null })),
            Of("a WhenAll over a task of another graph", "as g[\"Foreign\"]", g => g.WhenAll("All", Foreign())),
            Of("a claim on a task of another graph", "as g[\"Foreign\"]", g => g.Claims.Never(Foreign())),
            Of("a claim on null", "task", g => g.Claims.After(g.Run("A", Nothing), null)),
            Of("a task with a token of another graph", "by Token or Linked", g => g.Run("A", Nothing, ForeignToken())),
            Of("a link to a token of another graph", "by Token or Linked", g => g.Linked("l", ForeignToken())),
            Of("a check of a token of another graph", "by Token or Linked", CheckOfOther),
            Of("a claim with a token of another graph", "by Token or Linked", g => g.Claims.Quiet(ForeignToken())),
            Of("a claim with an input of another graph", "by Input", g => g.Claims.Given(ForeignInput(), true)),
            Of("a branch on an input of another graph", "by Input", BranchOnOther),
            Of("a claim of no end", "name RanToCompletion, Canceled or Faulted", g => g.Claims.Final(g.Run("A", Nothing))),
            Of("a given of no end", "name RanToCompletion, Canceled or Faulted", g => g.Claims.Ended(g.Run("A", Nothing))),
            Of("a claim of Running", "name one of these", g => g.Claims.Final(g.Run("A", Nothing), TaskStatus.Running)),
            Of("a claim without a name", "1 to 100 bytes", g => g.Claims.Named("")),
            Of("a claim's name of 101 bytes", "WithNote", g => g.Claims.Named(new string('\u00e4', 50) + "a")),
            Of("a claim's name with a control character", "without control", g => g.Claims.Named("line\u0085end")),
            Of("two claims of one name", "another name", NameTwice),
            Of("a given without a claim", "as Final(..)", g => { g.Claims.NoFailure(); g.ToJson(); }),
            Of("a note after the document", "before that", g => { g.ToJson(); g.WithNote("late"); }),
            Of("a stored document without a certificate", "keep what Certify gives", g => g.Check(g.ToJson())),
            Of("a program that isn't there", "set TASKGRAPH to the program's path", g => CallWith(g, "TASKGRAPH", "/nowhere/taskgraph")),
            Of("a program that isn't named", "TASKGRAPH isn't set", CallUnnamed),
            Of("seven splits", "depth is 0 to 6", g => g.Certify(depth: 7)),
            Of("a search with seven splits", "depth is 0 to 6", g => g.Verify(depth: 7)),
            Of("a million runs and one", "runs is 0 to 1000000", g => g.Verdicts(runs: 1000001)),
            Of("a step after the document", "before that", AddStepLate),
            Of("a step of a branch after the document", "before that", AddBranchStepLate),
            Of("a value after the start", "before Start", g => { GraphInput dry = g.Input("dry"); g.Start(); dry.Value = true; }),
            Of("an audit before the end", "call Wait", AuditEarly),
            Of("an audit without a real task", "hand the real task to Is: B", AuditWithoutTask),
            Of("a job that throws undeclared", "the job Fetch of Fetch threw InvalidOperationException: no route to host", WrongRuns.Undeclared),
            Of("its stack", "at TaskGraph.Tests.WrongRuns", WrongRuns.Undeclared),
            Of("a watched job that throws undeclared", "the job of Fetch threw InvalidOperationException: no route", WrongRuns.UndeclaredInCode),
            Of("a wrapped body without Work", "put the job into it.Work(..)", WrongRuns.WithoutWork),
            Of("two bodies that are exchanged", "hand the task whose body it is to Is(One, ..)", WrongRuns.Exchanged),
            Of("a task that is handed to nobody", "and Is names no task Fetch; hand the task whose body it is", WrongRuns.HandedToNobody),
            Of("calls in another order", "not allowed at", WrongRuns.OtherOrder),
            Of("a call that isn't made", "make it by run.Call, or declare the method otherwise: Save", WrongRuns.WithoutCall),
            Of("a call that is made twice", "has a real task already", WrongRuns.CallTwice),
            Of("a condition that throws", "the condition cached of Answer threw InvalidOperationException: no cache", WrongRuns.ThrowingCondition),
            Of("a condition of two answers", "declare an input for each condition", WrongRuns.TwoAnswers),
            Of("a value of a condition", "declare it by Input", g => g.Decides("cached", () => true).Value = true),
            Of("two inputs of one name", "that was made first", g => { g.Input("dry"); g.Decides("dry", () => true); }),
            Of("a failing site that isn't there", "no job is named B; there are A", g => { g.Run("A", Nothing); g.Start(RunOptions.Failing("B")); }),
            Of("a run toward a claim that holds", "take a verdict that is Fails", g => TowardWhatHolds(g)),
            Of("a failing site that may not fail", "declare it so", g => { g.Run("A", Nothing); g.Start(RunOptions.Failing("A")); }),
            Of("two real tasks of one", "declare another task", g => { g.Run("A", Nothing); Is(g, "A"); }),
            Of("an async body wrapped by Body", "wrap it by BodyAsync", g => WrapTask(g, isContinuation: false)),
            Of("an async body wrapped by Next", "wrap it by NextAsync", g => WrapTask(g, isContinuation: true)),
            Of("a watched root that observes", "wrap by Next", ObserveInRoot),
            Of("a watched cancel of a foreign token", "Token(name, source)", CancelForeign),
            Of("a real task of another graph", "as g[\"Foreign\"]", g => g.Watch().Is(Foreign(), Task.Delay(0))),
            Of("a second run", "build it again", g => { g.Run("A", Nothing); g.Start().Wait(); g.Start(); }),
            Of("a task after the start", "before that", g => { g.Run("A", Nothing); g.Start().Wait(); g.Run("B", Nothing); }),
            Of("the journal of a run that isn't recorded", "set to true", ReadUnrecorded),
            Of("a task that isn't there", "no task B; there are A", g => { g.Run("A", Nothing); Use(g["B"]); }),
            Of("a Catch behind an Await", "write .Try(it => it.Await(..)).Catch(..)", CatchBehindAwait),
            Of("a Catch without Try", "right behind Try", g => g.Method("M").Await("A", Nothing).Catch("C", Ignore)),
            Of("a Try alone", "Catch or a Finally", g => g.Method("M").Try(it => it.Await("A", Nothing)).Await("B", Nothing)),
            Of("a Try at the end alone", "Catch or a Finally", g => { g.Method("M").Try(it => it.Await("A", Nothing)); g.ToJson(); }),
            Of("two Catches", "tell the exceptions apart", CatchTwice),
            Of("an empty method", "add an Await", g => Use(g.Method("M").AsTask())),
            Of("a document with an empty method", "add an Await", g => { g.Method("M"); g.ToJson(); }),
            Of("a method's task that isn't made", "call AsTask of the method M", g => { g.Method("M").Await("A", Nothing); Use(g["M"]); }),
            Of("a retry of one attempt", "use Await", g => g.Method("M").Retry("A", 1, _ => Task.Delay(0))),
            Of("a statement after the method's task", "before AsTask is called", AddAfterTask),
        };

        internal static void Write(TextWriter to)
        {
            foreach (Case it in All)
            {
                to.WriteLine(it.Which + "\t" + it.Expected + "\t" + Answer(it.Wrong).Replace("\n", " "));
            }
        }

        private static Case Of(string which, string expected, Action<TaskGraphBuilder> wrong)
        {
            return new Case { Which = which, Expected = expected, Wrong = wrong };
        }

        private static string Answer(Action<TaskGraphBuilder> wrong)
        {
            try
            {
                wrong(new TaskGraphBuilder());
                return "it wasn't refused";
            }
            catch (Exception thrown)
            {
                return thrown.Message;
            }
        }

        private static void StartTwice(TaskGraphBuilder g)
        {
            var first = new Steps();
            var second = new Steps();
            g.Run("A", first);
            g.Run("B", second);
            GraphTask child = g.Child("C", Nothing);
            first.Start(child);
            second.Start(child);
            g.ToJson();
        }

        private static void NameTwice(TaskGraphBuilder g)
        {
            GraphTask task = g.Run("A", Nothing);
            g.Claims.Named("same").Never(task).Named("same").Observed(task);
        }

        private static void TakeSourceTwice(TaskGraphBuilder g)
        {
            var source = new CancellationTokenSource();
            g.Token("a", source);
            g.Token("b", source.Token);
        }

        private static void CheckForeign(TaskGraphBuilder g)
        {
            GraphToken stop = g.Token("stop");
            g.Run("A", new Steps().Check(stop).Work("x", () => Task.Delay(0)));
            g.ToJson();
        }

        private static void LookInRoot(TaskGraphBuilder g)
        {
            GraphInput dry = g.Input("dry");
            g.StartNew("A", new Steps().If(dry, new Steps(), new Steps().When(TaskStatus.Faulted, new Steps())));
            g.ToJson();
        }

        private static GraphTask Foreign() => new TaskGraphBuilder().Run("Foreign", Nothing);

        private static GraphToken ForeignToken() => new TaskGraphBuilder().Token("foreign");

        private static GraphInput ForeignInput() => new TaskGraphBuilder().Input("foreign");

        private static void CheckOfOther(TaskGraphBuilder g)
        {
            // the name is that of a token of this graph
            g.Token("foreign");
            g.Run("A", new Steps().Check(ForeignToken()));
            g.ToJson();
        }

        private static void BranchOnOther(TaskGraphBuilder g)
        {
            g.Input("foreign");
            g.Run("A", new Steps().If(ForeignInput(), new Steps()));
            g.ToJson();
        }

        private static void CallUnnamed(TaskGraphBuilder g)
        {
            string path = Environment.GetEnvironmentVariable("PATH");
            string folder = Environment.CurrentDirectory;
            Environment.SetEnvironmentVariable("PATH", "/nowhere");
            // Mono looks there too
            Environment.CurrentDirectory = "/";
            try
            {
                CallWith(g, "TASKGRAPH", null);
            }
            finally
            {
                Environment.SetEnvironmentVariable("PATH", path);
                Environment.CurrentDirectory = folder;
            }
        }

        private static void CallWith(TaskGraphBuilder g, string variable, string value)
        {
            string before = Environment.GetEnvironmentVariable(variable);
            Environment.SetEnvironmentVariable(variable, value);
            try
            {
                g.Verify();
            }
            finally
            {
                Environment.SetEnvironmentVariable(variable, before);
            }
        }

        private static void AddStepLate(TaskGraphBuilder g)
        {
            var steps = new Steps();
            g.Run("A", steps);
            g.ToJson();
            steps.Work("late", Nothing);
        }

        private static void AddBranchStepLate(TaskGraphBuilder g)
        {
            var branch = new Steps();
            g.Run("A", new Steps().If(g.Input("dry"), branch));
            g.ToJson();
            branch.Append(Job("late"));
        }

        private static void AuditEarly(TaskGraphBuilder g)
        {
            var release = new ManualResetEventSlim();
            g.Run("A", () => release.Wait());
            GraphRun run = g.Start();
            try
            {
                run.Audit();
            }
            finally
            {
                release.Set();
            }
        }

        private static void AuditWithoutTask(TaskGraphBuilder g)
        {
            GraphTask a = g.Run("A", Nothing);
            a.ContinueWith("B", Ignore);
            GraphRun run = g.Watch();
            run.Is(a, Task.Run(run.Body(a, it => it.Work(Nothing))));
            run.Wait();
            run.Audit();
        }

        private static void WrapTask(TaskGraphBuilder g, bool isContinuation)
        {
            GraphTask a = g.Run("A", Nothing);
            GraphRun run = g.Watch();
            if (isContinuation)
            {
                GC.KeepAlive(run.Next(a, it => it.WorkAsync(() => Task.Delay(0))));
            }
            else
            {
                GC.KeepAlive(run.Body(a, it => it.WorkAsync(() => Task.Delay(0))));
            }
        }

        private static void ObserveInRoot(TaskGraphBuilder g)
        {
            GraphTask a = g.Run("A", Nothing);
            GraphRun run = g.Watch();
            run.Body(a, it => { it.Observe(); })();
        }

        private static void CancelForeign(TaskGraphBuilder g)
        {
            GraphToken foreign = g.Token("t", CancellationToken.None);
            GraphTask a = g.Run("A", Nothing);
            GraphRun run = g.Watch();
            run.Body(a, it => it.Cancel(foreign))();
        }

        private static void Is(TaskGraphBuilder g, string name)
        {
            GraphRun run = g.Watch();
            run.Is(g[name], Task.Delay(0));
            run.Is(g[name], Task.Delay(0));
        }

        private static void ReadUnrecorded(TaskGraphBuilder g)
        {
            GC.KeepAlive(g.Start(new RunOptions { Record = false }).Journal);
        }

        private static void CatchTwice(TaskGraphBuilder g)
        {
            g.Method("M").Try(it => it.Await("A", Nothing)).Catch("C", Ignore).Catch("D", Ignore);
        }

        private static void TowardWhatHolds(TaskGraphBuilder g)
        {
            g.Claims.Final(g.Run("A", Nothing), TaskStatus.RanToCompletion);
            g.Start(RunOptions.Toward(g.Verdicts()[0]));
        }

        private static void CatchBehindAwait(TaskGraphBuilder g)
        {
            g.Method("M").Try(it => it.Await("A", Nothing)).Catch("C", Ignore).Await("B", Nothing).Catch("D", Ignore);
        }

        private static void AddAfterTask(TaskGraphBuilder g)
        {
            MethodBlock method = g.Method("M").Await("A", Nothing);
            Use(method.AsTask());
            method.Await("B", Nothing);
        }

        private static Steps Job(string site) => new Steps().Work(site, Nothing);

        private static void Nothing()
        {
        }

        private static void Ignore(Exception thrown)
        {
        }

        private static void Ignore(Task antecedent)
        {
        }

        private static void Use(GraphTask task)
        {
            GC.KeepAlive(task);
        }
    }
}
