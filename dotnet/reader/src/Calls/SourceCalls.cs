using System;
using System.Collections.Generic;
using System.Linq;

namespace TaskGraph.Reading
{
    /// <summary>CancellationTokenSource.</summary>
    internal sealed class SourceCalls : NamedCalls
    {
        public SourceCalls(Machine machine)
            : base(machine)
        {
            On(call => call.Give(new TokenValue(TokenOf(call))), "get_Token");
            On(Cancel, "Cancel", "CancelAsync");
            On(call => call.Skip(), "CancelAfter", "Dispose");
            On(call => throw call.Refuse(RefusalCode.Token, "TryReset"), "TryReset");
            On(call => call.Give(Machine.Fresh(Requested(call))), "get_IsCancellationRequested");
            On(Link, "CreateLinkedTokenSource");
        }

        protected override bool Covers(Call call) => call.Type == Types.Source;

        private static string Requested(Call call) =>
            call.Target is SourceValue source ? source.Token.Name + "_requested" : "requested";

        private PathToken TokenOf(Call call) =>
            (call.Target as SourceValue)?.Token ?? Machine.Outside.TokenOf("any" + call.Target.Key, "token", call.Where);

        private PathNode Cancel(Call call)
        {
            if (!(call.Target is SourceValue source))
            {
                throw call.Refuse(RefusalCode.Token, "a Cancel of a source that isn't known");
            }
            PathNode node = Machine.NewNode(NodeKind.Cancel, call.State);
            node.Token = source.Token;
            return Machine.Explorer.Fork(call.State, node, new Choice(Way.Ok, it => GoOn(it, call.HasResult)));
        }

        private static void GoOn(PathState state, bool hasTask)
        {
            if (hasTask)
            {
                state.Top.Push(EndedTask.Plain());
            }
            state.Top.At++;
        }

        private PathNode Link(Call call)
        {
            PathToken linked = Machine.NewToken(Naming.OfVariable(call.Frame) ?? "linked", call.Where);
            foreach (Value value in call.Arguments.SelectMany(it => call.State.ItemsOf(it) ?? new List<Value> { it }))
            {
                if (!(value is TokenValue token))
                {
                    throw call.Refuse(RefusalCode.Token, "a link to a token that isn't known");
                }
                if (token.Token != null)
                {
                    linked.Linked.Add(token.Token);
                }
            }
            return call.Give(new SourceValue(linked));
        }
    }
}
