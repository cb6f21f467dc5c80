using System;
using System.Collections.Concurrent;
using System.Collections.Generic;
using System.IO;
using System.Linq;
using System.Reflection;
using System.Threading;
using System.Threading.Tasks;

/// <summary>Runs methods of played code by chance, and writes each outcome that was seen, a line of JSON for each run.</summary>
internal static class Explore
{
    // a run mostly waits, so that many of them take little of a machine
    private const int Threads = 24, Least = 64;

    /// <param name="words">The assembly, the type, how many runs of each method, the first seed, and the methods.</param>
    private static void Main(string[] words)
    {
        Type type = Assembly.LoadFrom(Path.GetFullPath(words[0])).GetType(words[1]);
        int runs = int.Parse(words[2]), first = int.Parse(words[3]);
        TaskScheduler.UnobservedTaskException += (_, it) => it.SetObserved();
        ThreadPool.SetMinThreads(Least, Least);
        var open = new ConcurrentQueue<string>(words.Skip(4));
        List<Thread> threads = Enumerable.Range(0, Threads).Select(_ => new Thread(() => Work(open, it => Write(type, it, runs, first)))).ToList();
        threads.ForEach(it => it.Start());
        threads.ForEach(it => it.Join());
    }

    private static void Work(ConcurrentQueue<string> open, Action<string> act)
    {
        while (open.TryDequeue(out string name))
        {
            act(name);
        }
    }

    private static void Write(Type type, string name, int runs, int first)
    {
        foreach (string line in Enumerable.Range(first, runs).Select(it => Outcome(type, name, it)).Distinct())
        {
            lock (typeof(Explore))
            {
                Console.WriteLine(line);
            }
        }
    }

    private static string Outcome(Type type, string name, int seed)
    {
        MethodInfo method = type.GetMethod(name);
        bool hasToken = method.GetParameters().Any(it => it.ParameterType == typeof(CancellationToken));
        bool hasTypes = type.Name != "Team" || name == "ByType";
        var player = new Player(seed, hasToken, hasTypes);
        var played = (Played)Activator.CreateInstance(type);
        played.Player = player;
        object[] arguments = method.GetParameters().Select(it => Argument(it.ParameterType, player)).ToArray();
        string final = player.Run(() => Called(method, played, arguments));
        string begun = string.Join(", ", player.Begun.Select(Quoted));
        string ended = string.Join(", ", player.Ended.OrderBy(it => it.Key, StringComparer.Ordinal).Select(it => Quoted(it.Key) + ": " + Quoted(it.Value)));
        return "{\"method\": " + Quoted(name) + ", \"begun\": [" + begun + "], \"ended\": {" + ended + "}, \"final\": " + Quoted(final) + "}";
    }

    private static Task Called(MethodInfo method, Played played, object[] arguments)
    {
        if (method.ReturnType == typeof(void))
        {
            return Task.Run(() => method.Invoke(played, arguments));
        }
        return (Task)method.Invoke(played, arguments);
    }

    private static object Argument(Type type, Player player)
    {
        if (type == typeof(CancellationToken))
        {
            return player.Stop.Token;
        }
        if (type == typeof(bool))
        {
            return player.Choose(2) == 0;
        }
        return type == typeof(int) ? player.Choose(4) : player.Choose(2) == 0 ? null : (object)"";
    }

    private static string Quoted(string text) => "\"" + text + "\"";
}
