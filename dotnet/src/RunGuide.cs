using System;
using System.Collections.Generic;
using System.Diagnostics;
using System.Linq;
using System.Text.RegularExpressions;
using System.Threading;

namespace TaskGraph.Internals
{
    /// <summary>Leads a real run the way of a run that a verdict shows: its inputs, its failures, its requests, and the order of the events
    /// of bodies, as far as the scheduler goes along.</summary>
    internal sealed class RunGuide
    {
        // in milliseconds: so long a body waits for the events that come before its next one
        private const int Patience = 300;

        private static readonly Regex Input = new Regex("([A-Za-z0-9_]+) is (true|false)");
        private static readonly Regex Event = new Regex("^(w[0-9]+|o1) (begin|step|worked|leave|request) ([A-Za-z0-9_]+)(?: (done|failed))?");

        private readonly object gate = new object();
        private readonly Dictionary<string, bool> inputs = new Dictionary<string, bool>();

        // the events that are led, in order: each is that of a body, or the request of a token
        private readonly List<string> names = new List<string>();
        private readonly List<bool> isRequest = new List<bool>();
        private readonly List<bool> isLeave = new List<bool>();
        private readonly List<bool> hasPassed = new List<bool>();

        // for each task its events, and how many of them its body has come to; and the answers of its jobs
        private readonly Dictionary<string, Queue<int>> open = new Dictionary<string, Queue<int>>();
        private readonly Dictionary<string, Queue<bool>> failures = new Dictionary<string, Queue<bool>>();
        private Dictionary<string, CancellationTokenSource> sources;

        /// <param name="lines">The lines of a verdict that a claim fails.</param>
        internal RunGuide(IEnumerable<string> lines)
        {
            foreach (string line in lines)
            {
                Match found = Event.Match(line);
                if (found.Success)
                {
                    Add(found.Groups[3].Value, found.Groups[2].Value, found.Groups[4].Value);
                }
                else if (line.StartsWith("where ", StringComparison.Ordinal))
                {
                    foreach (Match input in Input.Matches(line))
                    {
                        inputs[input.Groups[1].Value] = input.Groups[2].Value == "true";
                    }
                }
            }
        }

        /// <summary>Gives the inputs their values, and makes the requests that come first.</summary>
        internal void Prepare(TaskGraphBuilder graph)
        {
            foreach (GraphInput input in graph.Inputs.Where(it => !it.IsCondition && inputs.ContainsKey(it.Name)))
            {
                input.Value = inputs[input.Name];
            }
            sources = graph.Tokens.Where(it => it.Source != null).ToDictionary(it => it.Name, it => it.Source);
            // what is requested before the first event of a body is requested before the run
            MayPass(names.Count);
        }

        /// <summary>Whether the next job of this task fails.</summary>
        internal bool Fails(GraphTask task)
        {
            lock (gate)
            {
                Queue<bool> answers;
                return failures.TryGetValue(task.Name, out answers) && answers.Count > 0 && answers.Dequeue();
            }
        }

        /// <summary>The body of this task comes to its next event: waits until those before it have passed, but not for long.</summary>
        internal void Come(GraphTask task)
        {
            int place = NextOf(task);
            if (place < 0)
            {
                return;
            }
            Stopwatch since = Stopwatch.StartNew();
            while (!MayPass(place) && since.ElapsedMilliseconds < Patience)
            {
                Thread.Sleep(1);
            }
            lock (gate)
            {
                hasPassed[place] = true;
            }
            if (isLeave[place])
            {
                // what follows the task may begin as soon as it has ended: a request that comes before that is made now
                MayPass(names.Count);
            }
        }

        private void Add(string name, string act, string answer)
        {
            bool isOfToken = act == "request";
            if (!isOfToken)
            {
                QueueOf(open, name).Enqueue(names.Count);
            }
            if (act == "worked")
            {
                QueueOf(failures, name).Enqueue(answer == "failed");
            }
            names.Add(name);
            isRequest.Add(isOfToken);
            isLeave.Add(act == "leave");
            hasPassed.Add(false);
        }

        private static Queue<T> QueueOf<T>(Dictionary<string, Queue<T>> queues, string name)
        {
            Queue<T> queue;
            if (!queues.TryGetValue(name, out queue))
            {
                queues[name] = queue = new Queue<T>();
            }
            return queue;
        }

        private int NextOf(GraphTask task)
        {
            lock (gate)
            {
                Queue<int> places;
                return open.TryGetValue(task.Name, out places) && places.Count > 0 ? places.Dequeue() : -1;
            }
        }

        /// <summary>Whether all events before this one have passed. A request whose turn it is, is made here.</summary>
        private bool MayPass(int place)
        {
            for (int before = 0; before < place; before++)
            {
                CancellationTokenSource source = null;
                lock (gate)
                {
                    if (hasPassed[before])
                    {
                        continue;
                    }
                    if (!isRequest[before])
                    {
                        return false;
                    }
                    hasPassed[before] = true;
                    sources.TryGetValue(names[before], out source);
                }
                source?.Cancel();
            }
            return true;
        }
    }
}
