using System.Collections.Generic;
using System.Linq;

namespace TaskGraph.Reading
{
    /// <summary>Lists whose items are known, and their enumerators.</summary>
    internal sealed class ListCalls : NamedCalls
    {
        public ListCalls(Machine machine)
            : base(machine)
        {
            On(Add, "Add");
            On(Remove, "Remove");
            On(call => call.Give(new Number(Items(call).Count)), "get_Count");
            On(call => call.Give(Machine.NewObject(call.State, Items(call))), "ToArray", "AsReadOnly");
            On(Enumerate, "GetEnumerator");
            On(Clear, "Clear");
            On(Item, "get_Item");
            On(MoveNext, "MoveNext");
            On(call => call.Give(Items(call)[Position(call)]), "get_Current");
            On(call => call.Skip(), "Dispose");
        }

        protected override bool Covers(Call call)
        {
            HeapObject list = call.State.Find(call.Target);
            bool isOfEnumerator = call.Name == "MoveNext" || call.Name == "get_Current" || call.Name == "Dispose";
            return list?.Items != null && (list.Position != null) == isOfEnumerator && (call.Name != "get_Item" || IsInside(call));
        }

        private static List<Value> Items(Call call) => call.State.ItemsOf(call.Target);

        private static int Position(Call call) => call.State.Find(call.Target).Position ?? 0;

        private static bool IsInside(Call call) => ItemAt(call) != null;

        private static PathNode Item(Call call) => call.Give(ItemAt(call));

        /// <summary>The item at a place; null where it isn't known.</summary>
        private static Value ItemAt(Call call)
        {
            bool isInside = call.Arguments[0] is Number index && index.Amount >= 0 && index.Amount < Items(call).Count;
            return isInside ? Items(call)[(int)((Number)call.Arguments[0]).Amount] : (call.Arguments[0] as WinnerIndex)?.In(Items(call));
        }

        private PathNode Add(Call call)
        {
            Items(call).Add(call.Arguments[0]);
            return call.GiveIfAny(Machine.Fresh("added"));
        }

        private static PathNode Remove(Call call)
        {
            if (call.Arguments[0] is WinnerValue)
            {
                throw call.Refuse(RefusalCode.Winner, "the winner of a WhenAny is taken out of a list: which one isn't known to a document");
            }
            int at = Items(call).FindIndex(it => it.Key == call.Arguments[0].Key);
            if (at >= 0)
            {
                Items(call).RemoveAt(at);
            }
            return call.Give(Number.Of(at >= 0));
        }

        private static PathNode Clear(Call call)
        {
            Items(call).Clear();
            return call.Skip();
        }

        private PathNode Enumerate(Call call)
        {
            ObjectValue enumerator = Machine.NewObject(call.State, Items(call));
            call.State.Find(enumerator).Position = -1;
            return call.Give(enumerator);
        }

        private static PathNode MoveNext(Call call)
        {
            HeapObject enumerator = call.State.Find(call.Target);
            enumerator.Position = Position(call) + 1;
            return call.Give(Number.Of(enumerator.Position < enumerator.Items.Count));
        }
    }
}
