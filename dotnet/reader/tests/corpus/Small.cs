using System;
using System.Threading;
using System.Threading.Tasks;

/// <summary>Small methods for the tests of the reader's classes.</summary>
public class Small
{
    public static void Sync()
    {
    }

    [TaskGraph.Reading.NeverThrows]
    public static void Close()
    {
    }

    public static Task Load() => Task.Delay(1);

    public static int Sum(int count)
    {
        int sum = 0;
        for (int number = 0; number < count; number++)
        {
            sum += number;
        }
        return sum;
    }

    public static async Task Import()
    {
        await Load();
        Close();
    }

    public static Task Release()
    {
        var deploy = Task.Run(() => Sync());
        return deploy.ContinueWith(_ => Close(), TaskContinuationOptions.OnlyOnFaulted | TaskContinuationOptions.ExecuteSynchronously);
    }

    public static async Task Caught(CancellationToken stop)
    {
        try
        {
            await Load();
        }
        catch (OperationCanceledException) when (stop.IsCancellationRequested)
        {
            Sync();
        }
    }

    public static async Task Waited(CancellationToken stop)
    {
        var load = Load();
        await Later.WaitAsync(load, stop);
        Close();
    }

    public static async Task Told()
    {
        var load = Load();
        try
        {
            await load;
        }
        catch (Exception)
        {
            if (load.IsFaulted)
            {
                Sync();
            }
        }
    }

    public static void Limited(CancellationToken stop)
    {
        if (Load().Wait(1, stop))
        {
            Close();
        }
    }

    public static void Forever() => Load().Wait(-1, CancellationToken.None);

    public static void First()
    {
        var tasks = new[] { Load(), Load() };
        int first = Task.WaitAny(tasks, 1);
        if (first >= 0 && first < 2)
        {
            tasks[first].Wait();
            Close();
        }
    }

    public static Task Over() => Task.WhenAny(Load(), Task.CompletedTask);

    public static void OverArray()
    {
        var tasks = new[] { Load(), Load() };
        Later.WhenAll(new ReadOnlySpan<Task>(tasks)).Wait();
        Close();
    }

    public static void OverBuffer()
    {
        var buffer = default(Buffer);
        Buffers.InlineArrayElementRef<Buffer, Task>(ref buffer, 0) = Load();
        Buffers.InlineArrayElementRef<Buffer, Task>(ref buffer, 1) = Load();
        Later.WhenAll(Buffers.InlineArrayAsReadOnlySpan<Buffer, Task>(ref buffer, 2)).Wait();
        Close();
    }


    public static Task Same(int one) => Load();

    public static Task Same(int one, int other) => Load();
}

/// <summary>Stands for calls that Mono's Task lacks: a test puts those of Task in the place of these.</summary>
public static class Later
{
    public static Task WaitAsync(Task task, CancellationToken stop) => task;

    public static Task WhenAll(ReadOnlySpan<Task> tasks) => Task.CompletedTask;
}

/// <summary>Stands for a buffer of two that a compiler makes for a span.</summary>
public struct Buffer
{
}

/// <summary>Stands for what a compiler fills such a buffer with: a test gives it the name that it has there.</summary>
public static class Buffers
{
    public static ref TElement InlineArrayElementRef<TBuffer, TElement>(ref TBuffer buffer, int at) => throw new NotSupportedException();

    public static ReadOnlySpan<TElement> InlineArrayAsReadOnlySpan<TBuffer, TElement>(ref TBuffer buffer, int count) =>
        throw new NotSupportedException();
}
