using System;
using System.Collections.Generic;
using System.Linq;

namespace TaskGraph.Internals
{
    /// <summary>Into which gaps requests are written, and begins that the scheduler decided on before a request.</summary>
    /// <remarks>A task may begin, and a check be passed, after its token was requested: the scheduler looked at the token earlier. So
    /// a request is written as late as nothing has needed it: a check that was hit, a task that was canceled, the return of the call
    /// that made it. Where that isn't late enough, the begin is written before the request, earlier than it was recorded.</remarks>
    internal sealed class RequestPlan
    {
        private readonly Timeline times;
        private readonly List<Request> requests = new List<Request>();

        internal RequestPlan(Timeline times)
        {
            this.times = times;
            foreach (GraphToken token in times.Tokens.Where(IsRequested).OrderBy(it => times.RequestGap[it.Id]))
            {
                Add(token, times.RequestGap[token.Id]);
            }
        }

        /// <summary>The requests, in the order in which they were seen.</summary>
        internal IReadOnlyList<Request> Requests => requests;

        /// <summary>The gap into which the task's begin is written, before a request; none where it stands at its record.</summary>
        internal int BeginGap(GraphTask task)
        {
            if (!times.HasBegun(task) || task.Token == null)
            {
                return Timeline.None;
            }
            int begin = times.BeginAt[task.Id];
            int[] before = requests.Where(it => it.Place <= begin && it.Token.Requests(task.Token)).Select(it => it.Place).ToArray();
            return before.Length == 0 ? Timeline.None : before.Min();
        }

        private bool IsRequested(GraphToken token) => times.RequestGap[token.Id] != Timeline.Never;

        private void Add(GraphToken token, int gap)
        {
            if (token.Sources.Any(it => times.IsRequested(it, gap)))
            {
                // it follows its source
                return;
            }
            int call = OpenCall(token, gap);
            int bound = call == Timeline.None ? times.Count - 1 : times.ReturnOf(call);
            int place = LatestPlace(token, gap, FirstNeed(token, gap, bound));
            requests.Add(new Request(token, call, place));
        }

        /// <summary>The first call of Cancel that was open in this gap; none where none was.</summary>
        private int OpenCall(GraphToken token, int gap)
        {
            foreach (int call in times.CancelCalls)
            {
                if (call < gap && times.TokenOf(times.Run.Records[call]) == token && times.ReturnOf(call) >= gap)
                {
                    return call;
                }
            }
            return Timeline.None;
        }

        /// <summary>The first record at which the token has to be requested.</summary>
        private int FirstNeed(GraphToken token, int gap, int bound)
        {
            return Math.Min(FirstHit(token, gap, FirstReturn(token, gap, bound)), FirstDrop(token, gap));
        }

        /// <summary>The step of a call of Cancel of a token that this one requests, or that requests this one, requests it too.</summary>
        private int FirstReturn(GraphToken token, int gap, int bound)
        {
            foreach (int call in times.CancelCalls)
            {
                GraphToken other = times.TokenOf(times.Run.Records[call]);
                if (times.ReturnOf(call) >= gap && (token.Requests(other) || other.Requests(token)))
                {
                    bound = Math.Min(bound, times.ReturnOf(call));
                }
            }
            return bound;
        }

        private int FirstHit(GraphToken token, int gap, int bound)
        {
            for (int place = gap; place < bound; place++)
            {
                Record record = times.Run.Records[place];
                if (record.Kind == RecordKind.CheckHit && token.Requests(times.TokenOf(record)))
                {
                    return place;
                }
            }
            return bound;
        }

        private int FirstDrop(GraphToken token, int gap)
        {
            int first = int.MaxValue;
            foreach (GraphTask task in times.Tasks.Where(it => IsDroppedBy(token, it)))
            {
                first = Math.Min(first, Math.Max(times.EndGap[task.Id], gap));
            }
            return first;
        }

        private bool IsDroppedBy(GraphToken token, GraphTask task)
        {
            return times.Run.IsFinal[task.Id] && !times.HasBegun(task) && task.Token != null && token.Requests(task.Token)
                && !IsExcluded(task);
        }

        private bool IsExcluded(GraphTask task)
        {
            return task.Kind == TaskKind.Then && times.EndGap[task.Antecedent.Id] <= times.EndGap[task.Id] && !times.AllowsStart(task);
        }

        /// <summary>Behind the last record before the need that asks that the token isn't requested.</summary>
        private int LatestPlace(GraphToken token, int gap, int need)
        {
            int latest = gap;
            for (int place = gap; place < need; place++)
            {
                if (IsAgainst(token, times.Run.Records[place]))
                {
                    latest = place + 1;
                }
            }
            return latest;
        }

        private bool IsAgainst(GraphToken token, Record record)
        {
            switch (record.Kind)
            {
                case RecordKind.CheckPassed:
                    return token.Requests(times.TokenOf(record));
                case RecordKind.Begin:
                    GraphToken own = times.TaskOf(record).Token;
                    return own != null && token.Requests(own);
                default:
                    return false;
            }
        }
    }
}
