using System;
using System.Linq;
using System.Text.RegularExpressions;

namespace TaskGraph.Internals
{
    /// <summary>Audits a run: its journal, and how each task was seen to end, since a journal itself doesn't say that.</summary>
    internal sealed class RunAudit
    {
        private static readonly Regex Otherwise = new Regex("^task ([A-Za-z0-9_]+) ended ([A-Za-z]+)$", RegexOptions.Multiline);

        private const string NotComplete = "run not complete";

        private readonly TaskGraphBuilder graph;
        private readonly RunAccount account;

        internal RunAudit(TaskGraphBuilder graph, RunAccount account)
        {
            this.graph = graph;
            this.account = account;
        }

        /// <summary>What no journal can say of the run; null where there is no such thing.</summary>
        internal RunNote Unsayable =>
            account.Notes.FirstOrDefault(it => it.Kind == RunNoteKind.WinnerLookedAt || it.Kind == RunNoteKind.Unexplained);

        /// <exception cref="TaskGraphException">The program says no, or no journal says what happened.</exception>
        internal void Demand(CallLimit limit)
        {
            if (Unsayable != null)
            {
                throw new TaskGraphException(Lead() + "no journal says what happened: " + Unsayable.Text + "\n" + Told());
            }
            ProgramAnswer answer = limit.Call("audit --explain", graph.ToJson(account));
            if (answer.ExitCode != 0)
            {
                throw new TaskGraphException(Lead() + OtherEnd(answer) + answer.Output + answer.Error + Hint(answer) + Told());
            }
        }

        private static bool IsCause(RunNote note)
        {
            return note.Kind == RunNoteKind.Undeclared || note.Kind == RunNoteKind.Unreported || note.Kind == RunNoteKind.OtherTask;
        }

        /// <summary>What is wrong with the declaration or the wrapping of code, which comes first: the answer follows from it.</summary>
        private string Lead() => string.Concat(account.Notes.Where(IsCause).Select(it => it.Text + "\n"));

        /// <summary>Where a task was seen to end otherwise than the journal says, that in words.</summary>
        private string OtherEnd(ProgramAnswer answer)
        {
            Match found = Otherwise.Match(answer.Output);
            if (!found.Success)
            {
                return "";
            }
            string name = found.Groups[1].Value;
            string seen = account.Ends.Single(it => it.Key.Name == name).Value.ToString();
            return "the task " + name + " ended " + seen + ", and by the journal it is " + found.Groups[2].Value + "\n";
        }

        /// <summary>What to call where the run isn't complete.</summary>
        private string Hint(ProgramAnswer answer)
        {
            if (!answer.Output.StartsWith(NotComplete, StringComparison.Ordinal))
            {
                return "";
            }
            if (account.Unmade.Count == 0)
            {
                return "before Audit, call Wait, which gives true once every task has ended\n";
            }
            const string noCall = "the code makes no such call, and by the declaration it does; make it by run.Call, or declare the method"
                + " otherwise: ";
            return Missing(noCall, true) + Missing("hand the real task to Is: ", false);
        }

        private string Missing(string advice, bool isOfMethod)
        {
            string[] names = account.Unmade.Where(it => it.IsOfMethod == isOfMethod).Select(it => it.Name).ToArray();
            return names.Length == 0 ? "" : advice + string.Join(", ", names) + "\n";
        }

        private string Told()
        {
            string notes = string.Concat(account.Notes.Where(it => !IsCause(it)).Select(it => it + "\n"));
            return notes + EventLines.Beside(graph.Tasks, account.Journal);
        }
    }
}
