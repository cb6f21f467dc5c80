using System;
using System.Threading.Tasks;

namespace TaskGraph.Internals
{
    /// <summary>Executes the steps of one task's body, and has each recorded.</summary>
    internal sealed class BodyRunner
    {
        private readonly GraphRun run;
        private readonly Recorder recorder;
        private readonly RunOptions options;
        private readonly GraphTask task;
        private readonly Task antecedent;
        private int worker;

        internal BodyRunner(GraphRun run, Recorder recorder, RunOptions options, GraphTask task, Task antecedent)
        {
            this.run = run;
            this.recorder = recorder;
            this.options = options;
            this.task = task;
            this.antecedent = antecedent;
        }

        internal void Run()
        {
            Begin();
            try
            {
                Run(task.Body);
            }
            finally
            {
                End();
            }
        }

        internal async Task RunAsync()
        {
            Begin();
            try
            {
                await RunAsync(task.Body).ConfigureAwait(false);
            }
            finally
            {
                End();
            }
        }

        private void Begin()
        {
            Delay();
            options.Guide?.Come(task);
            worker = recorder.Begin(task.Id);
            Delay();
        }

        private void End()
        {
            Put(RecordKind.Over);
            Delay();
            options.Guide?.Come(task);
        }

        /// <summary>Executes the steps; gives whether the body is over.</summary>
        private bool Run(Steps steps)
        {
            foreach (Step step in steps.List)
            {
                StepOutcome outcome = Pass(step);
                if (outcome == StepOutcome.Job)
                {
                    Work(step);
                }
                else if (IsOver(outcome) || (IsBranch(outcome) && Run(Chosen(step, outcome))))
                {
                    return true;
                }
            }
            return false;
        }

        private async Task<bool> RunAsync(Steps steps)
        {
            foreach (Step step in steps.List)
            {
                StepOutcome outcome = Pass(step);
                if (outcome == StepOutcome.Job)
                {
                    await WorkAsync(step).ConfigureAwait(false);
                }
                else if (IsOver(outcome) || (IsBranch(outcome) && await RunAsync(Chosen(step, outcome)).ConfigureAwait(false)))
                {
                    return true;
                }
            }
            return false;
        }

        private static bool IsOver(StepOutcome outcome) => outcome == StepOutcome.Over;

        private static bool IsBranch(StepOutcome outcome)
        {
            return outcome == StepOutcome.Then || outcome == StepOutcome.Otherwise;
        }

        private static Steps Chosen(Step step, StepOutcome outcome)
        {
            return outcome == StepOutcome.Then ? step.Then : step.Otherwise;
        }

        /// <summary>Passes a step that is no job, and says how the body goes on.</summary>
        private StepOutcome Pass(Step step)
        {
            Delay();
            options.Guide?.Come(task);
            switch (step.Kind)
            {
                case StepKind.Return:
                    Put(RecordKind.Step);
                    return StepOutcome.Over;
                case StepKind.Throw:
                    Put(RecordKind.Step);
                    throw step.Exception(antecedent == null ? null : Subject());
                case StepKind.Check:
                    Check(step.Token);
                    return StepOutcome.Next;
                case StepKind.Cancel:
                    Cancel(step.Token);
                    return StepOutcome.Next;
                case StepKind.Start:
                    recorder.Put(RecordKind.Start, task.Id, worker, step.Child.Id);
                    run.StartChild(step.Child);
                    return StepOutcome.Next;
                case StepKind.Observe:
                    GC.KeepAlive(Subject().Exception);
                    Put(RecordKind.Step);
                    return StepOutcome.Next;
                case StepKind.If:
                    return Decide(step.Input) ? StepOutcome.Then : StepOutcome.Otherwise;
                case StepKind.When:
                    Put(RecordKind.Step);
                    return Subject().Status == step.Final ? StepOutcome.Then : StepOutcome.Otherwise;
                default:
                    return StepOutcome.Job;
            }
        }

        /// <summary>Reads an input, and notes that the branch is passed.</summary>
        private bool Decide(GraphInput input)
        {
            try
            {
                return input.Read();
            }
            catch (Exception thrown)
            {
                string what = "the condition " + input.Name + " of " + task.Name;
                recorder.Say(RunNoteKind.Undeclared, Told.Of(what, thrown, "ask for it in a job with mayFail"));
                throw;
            }
            finally
            {
                Put(RecordKind.Step);
            }
        }

        private void Work(Step step)
        {
            try
            {
                Inject(step);
                step.Job(antecedent);
            }
            catch (Exception thrown)
            {
                PutThrown(step, thrown);
                throw;
            }
            Put(RecordKind.Done);
        }

        private async Task WorkAsync(Step step)
        {
            if (step.AsyncJob == null)
            {
                Work(step);
                return;
            }
            try
            {
                Inject(step);
                await step.AsyncJob(antecedent).ConfigureAwait(false);
            }
            catch (Exception thrown)
            {
                PutThrown(step, thrown);
                throw;
            }
            Put(RecordKind.Done);
        }

        private void Inject(Step step)
        {
            bool isLed = options.Guide != null && options.Guide.Fails(task);
            if (step.MayFail && (isLed || (options.Fail != null && options.Fail(step.Text))))
            {
                throw new InjectedFailureException(step.Text);
            }
        }

        /// <summary>A job threw: by its token, so that it counts as done and the check behind it ends the body; or it failed.</summary>
        private void PutThrown(Step step, Exception thrown)
        {
            if (step.Token != null && step.Token.IsStop(thrown))
            {
                Put(RecordKind.Done);
                recorder.Check(task.Id, worker, step.Token.Id);
                return;
            }
            Put(RecordKind.Failed);
            if (!step.MayFail)
            {
                recorder.Say(RunNoteKind.Undeclared, Told.Of("the job " + step.Text + " of " + task.Name, thrown, AdviceOn(thrown)));
            }
        }

        private static string AdviceOn(Exception thrown)
        {
            return thrown is OperationCanceledException
                ? "declare it as Work with the token by which it stops"
                : "declare it with mayFail, or catch the exception in the job";
        }

        private void Check(GraphToken token)
        {
            if (recorder.Check(task.Id, worker, token.Id))
            {
                throw new OperationCanceledException(token.CancellationToken);
            }
        }

        private void Cancel(GraphToken token)
        {
            recorder.Put(RecordKind.CancelCalled, task.Id, worker, token.Id);
            try
            {
                token.Source.Cancel();
            }
            catch (AggregateException thrown)
            {
                string what = "a callback of " + token.Name + " threw " + thrown.InnerException.GetType().Name;
                recorder.Say(RunNoteKind.Callback, what + " out of Cancel in " + task.Name);
                throw;
            }
            finally
            {
                recorder.Put(RecordKind.CancelReturned, task.Id, worker, token.Id);
            }
        }

        /// <summary>The antecedent, or the winner where the antecedent is a WhenAny task.</summary>
        private Task Subject() => task.Antecedent.Kind == TaskKind.Any ? Winner.Of(antecedent) : antecedent;

        private void Put(RecordKind kind)
        {
            recorder.Put(kind, task.Id, worker);
        }

        private void Delay()
        {
            if (options.Delay != null)
            {
                options.Delay(task);
            }
        }
    }
}
