using System;
using System.Collections.Generic;
using System.Linq;
using System.Reflection;
using System.Threading;
using System.Threading.Tasks;

/// <summary>Runs async methods in every order of ends, resumptions and requests, and writes each outcome, a line of JSON.</summary>
internal static class Explore
{
    private const int MostRuns = 30000;

    /// <param name="words">The names of methods, those that have a token with a colon behind them.</param>
    private static void Main(string[] words)
    {
        TaskScheduler.UnobservedTaskException += (_, it) => it.SetObserved();
        foreach (string word in words)
        {
            Write(typeof(Methods).GetMethod(word.TrimEnd(':')), word.EndsWith(":", StringComparison.Ordinal));
        }
    }

    private static void Write(MethodInfo method, bool hasToken)
    {
        var choices = new Choices();
        var seen = new HashSet<string>();
        int runs = 0;
        do
        {
            var run = new Methods { Choices = choices, HasToken = hasToken };
            seen.Add(run.Outcome(() => (Task)method.Invoke(run, null)));
            runs++;
        }
        while (choices.Next() && runs < MostRuns);
        string whole = runs < MostRuns ? "true" : "false";
        foreach (string outcome in seen)
        {
            Console.WriteLine("{\"method\": \"" + method.Name + "\", \"whole\": " + whole + ", " + outcome + "}");
        }
    }
}

/// <summary>The choices of a run, which are made again in the next one up to the last that has another way.</summary>
public sealed class Choices
{
    private readonly List<int> made = new List<int>(), counts = new List<int>();
    private int place;

    public int Choose(int count)
    {
        if (place == made.Count)
        {
            made.Add(0);
            counts.Add(count);
        }
        return made[place++];
    }

    /// <summary>Begins the next run; false where there is none.</summary>
    public bool Next()
    {
        place = 0;
        while (made.Count > 0 && made[made.Count - 1] + 1 == counts[counts.Count - 1])
        {
            made.RemoveAt(made.Count - 1);
            counts.RemoveAt(counts.Count - 1);
        }
        if (made.Count > 0)
        {
            made[made.Count - 1]++;
        }
        return made.Count > 0;
    }
}

/// <summary>What a method calls, and the run of it: what may happen in it is chosen one by one.</summary>
public abstract class Played
{
    private readonly List<string> notes = new List<string>();
    private readonly List<KeyValuePair<string, Task>> tasks = new List<KeyValuePair<string, Task>>();
    private readonly HashSet<string> ended = new HashSet<string>();
    private readonly List<Action> open = new List<Action>();
    private readonly Dictionary<string, bool> inputs = new Dictionary<string, bool>();
    private readonly CancellationTokenSource source = new CancellationTokenSource();
    private readonly Posted posted = new Posted();

    public Choices Choices { private get; set; }

    /// <summary>Whether the token may be requested.</summary>
    public bool HasToken { private get; set; }

    /// <summary>A token that may be requested at any moment.</summary>
    protected CancellationToken Stop => source.Token;

    /// <summary>Runs a method to its end, and gives the members of JSON that say what was seen.</summary>
    public string Outcome(Func<Task> method)
    {
        open.Add(() => tasks.Add(new KeyValuePair<string, Task>("M", Within(method))));
        while (Act(tasks.Any(it => it.Key == "M") && open.Count == 0 && posted.Count == 0))
        {
        }
        IEnumerable<string> unread = tasks.Where(it => it.Key != "M" && IsUnread(it.Value)).Select(it => it.Key);
        return "\"seen\": [" + Quoted(notes) + "], \"unread\": [" + Quoted(unread.OrderBy(it => it, StringComparer.Ordinal)) + "]";
    }

    /// <summary>A call of an async method, whose job ends in one of these ways; it may check the token behind its job.</summary>
    protected Task Call(string name, bool mayFail, bool mayCancel, bool checks) =>
        Called(name, Async(mayFail, mayCancel, checks));

    /// <summary>A task with a plain body, which isn't async.</summary>
    protected Task Plain(string name, bool mayFail, bool mayCancel)
    {
        Exception thrown = null;
        var task = new Task(() => Throw(thrown));
        open.Add(() =>
        {
            thrown = Answer(mayFail, mayCancel);
            task.RunSynchronously(TaskScheduler.Default);
        });
        return Called(name, task);
    }

    protected Task Job(string name, bool mayFail = true, CancellationToken? checks = null) =>
        Call(name, mayFail, false, checks.HasValue);

    /// <summary>Work of the method's own.</summary>
    protected void Do(string name, bool mayFail = false, bool mayCancel = false)
    {
        Exception thrown = Answer(mayFail, mayCancel);
        notes.Add("do " + name + (thrown == null ? " done" : thrown is OperationCanceledException ? " canceled" : " failed"));
        Turn();
        Throw(thrown);
    }

    /// <summary>Waits without an await: others act until the tasks have ended.</summary>
    protected void WaitFor(params Task[] awaited)
    {
        SynchronizationContext before = SynchronizationContext.Current;
        while (!awaited.All(it => it.IsCompleted))
        {
            Act(false, false);
        }
        SynchronizationContext.SetSynchronizationContext(before);
        Task.WaitAll(awaited);
    }

    /// <summary>A check of the token.</summary>
    protected void Check()
    {
        Stop.ThrowIfCancellationRequested();
        Turn();
    }

    protected bool Input(string name)
    {
        if (!inputs.TryGetValue(name, out bool value))
        {
            inputs[name] = value = Choices.Choose(2) == 1;
        }
        return value;
    }

    private static string Quoted(IEnumerable<string> texts) => string.Join(", ", texts.Select(it => "\"" + it + "\""));

    private static void Throw(Exception thrown)
    {
        if (thrown != null)
        {
            throw thrown;
        }
    }

    /// <summary>Nobody has looked at the exceptions of a task.</summary>
    private static bool IsUnread(Task task)
    {
        object holder = Field(Field(task, "m_contingentProperties"), "m_exceptionsHolder");
        return holder != null && !(bool)Field(holder, "m_isHandled");
    }

    private static object Field(object of, string name)
    {
        BindingFlags any = BindingFlags.Instance | BindingFlags.NonPublic | BindingFlags.DeclaredOnly;
        for (Type type = of?.GetType(); type != null; type = type.BaseType)
        {
            FieldInfo field = type.GetField(name, any);
            if (field != null)
            {
                return field.GetValue(of);
            }
        }
        return null;
    }

    private Exception Answer(bool mayFail, bool mayCancel)
    {
        var answers = new List<Exception> { null };
        answers.AddRange(mayFail ? new Exception[] { new InvalidOperationException() } : new Exception[0]);
        answers.AddRange(mayCancel ? new Exception[] { new OperationCanceledException() } : new Exception[0]);
        return answers[Choices.Choose(answers.Count)];
    }

    private async Task Async(bool mayFail, bool mayCancel, bool checks)
    {
        await Gate().ConfigureAwait(false);
        Throw(Answer(mayFail, mayCancel));
        if (checks)
        {
            Stop.ThrowIfCancellationRequested();
            await Gate().ConfigureAwait(false);
        }
    }

    /// <summary>A task that ends when that is chosen.</summary>
    private Task Gate()
    {
        var gate = new TaskCompletionSource<int>();
        open.Add(() => gate.SetResult(0));
        return gate.Task;
    }

    private Task Called(string name, Task task)
    {
        notes.Add("call " + name);
        tasks.Add(new KeyValuePair<string, Task>(name, task));
        Turn();
        return task;
    }

    /// <summary>Between two statements of the method others may act.</summary>
    private void Turn()
    {
        SynchronizationContext before = SynchronizationContext.Current;
        while (Act(true, false))
        {
        }
        SynchronizationContext.SetSynchronizationContext(before);
    }

    /// <summary>Does one of the acts that are possible, or none if that may be and is chosen; whether it did one.</summary>
    private bool Act(bool mayStop, bool mayResume = true)
    {
        var acts = new List<Action>();
        acts.AddRange(open.Select<Action, Action>(it => () => End(it)));
        acts.AddRange(mayResume ? posted.Acts(Within) : new Action[0]);
        acts.AddRange(HasToken && !source.IsCancellationRequested ? new Action[] { Request } : new Action[0]);
        int choice = Choices.Choose(acts.Count + (mayStop ? 1 : 0));
        if (choice == acts.Count)
        {
            return false;
        }
        acts[choice]();
        return true;
    }

    private void Request()
    {
        notes.Add("request stop");
        SynchronizationContext.SetSynchronizationContext(null);
        source.Cancel();
    }

    /// <summary>Outside of the method, so that what goes on there goes on at once.</summary>
    private void End(Action act)
    {
        open.Remove(act);
        SynchronizationContext.SetSynchronizationContext(null);
        act();
        NoteEnds();
    }

    /// <summary>Inside the method, whose awaits are posted.</summary>
    private T Within<T>(Func<T> act)
    {
        SynchronizationContext.SetSynchronizationContext(posted);
        T value = act();
        SynchronizationContext.SetSynchronizationContext(null);
        return value;
    }

    private void Within(Action act)
    {
        Within(() =>
        {
            act();
            return 0;
        });
        NoteEnds();
    }

    private void NoteEnds()
    {
        foreach (KeyValuePair<string, Task> each in tasks.Where(it => it.Value.IsCompleted && ended.Add(it.Key)))
        {
            notes.Add("end " + each.Key + " " + each.Value.Status);
        }
    }
}

/// <summary>What is posted from awaits, and hasn't gone on yet.</summary>
internal sealed class Posted : SynchronizationContext
{
    private readonly List<Action> callbacks = new List<Action>();

    public int Count => callbacks.Count;

    public override void Post(SendOrPostCallback callback, object state) => callbacks.Add(() => callback(state));

    /// <summary>An act for each of them, by which it goes on.</summary>
    public IEnumerable<Action> Acts(Action<Action> within) => callbacks.Select<Action, Action>(it => () =>
    {
        callbacks.Remove(it);
        within(it);
    });
}
