using System.Collections.Generic;
using System.Linq;

namespace TaskGraph.Reading
{
    /// <summary>A statement of a body in a document.</summary>
    internal sealed class Statement
    {
        private readonly string word;
        private readonly string argument;
        private readonly bool mayFail;

        private Statement(string word, string argument = null, bool mayFail = false)
        {
            this.word = word;
            this.argument = argument;
            this.mayFail = mayFail;
        }

        public List<Statement> Then { get; private set; }

        public List<Statement> Else { get; private set; }

        public bool IsReturn => word == "return";

        public static Statement Observe() => new Statement("observe");

        public static Statement Return() => new Statement("return");

        public static Statement Work(string site, bool mayFail) => new Statement("work", site, mayFail);

        public static Statement Check(string token) => new Statement("check", token);

        public static Statement Cancel(string token) => new Statement("cancel", token);

        public static Statement Throw(string label) => new Statement("throw", label);

        public static Statement Start(string child) => new Statement("start", child);

        public static Statement If(string input, List<Statement> then, List<Statement> otherwise = null) =>
            new Statement("if", input) { Then = then, Else = otherwise };

        public static Statement When(Final final, List<Statement> then, List<Statement> otherwise = null) =>
            new Statement("when", final.ToString()) { Then = then, Else = otherwise };

        /// <summary>Drops a branch that does nothing.</summary>
        public void DropEmptyElse()
        {
            Else = Else != null && Else.Count == 0 ? null : Else;
        }

        public string ToJson()
        {
            if (argument == null)
            {
                return JsonText.Of(word);
            }
            var members = new List<string> { JsonText.Member(word, JsonText.Of(argument)) };
            if (mayFail)
            {
                members.Add(JsonText.Member("may_fail", "true"));
            }
            if (Then != null)
            {
                members.Add(JsonText.Member("then", JsonText.List(Then.Select(it => it.ToJson()))));
            }
            if (Else != null)
            {
                members.Add(JsonText.Member("else", JsonText.List(Else.Select(it => it.ToJson()))));
            }
            return JsonText.Object(members);
        }
    }
}
