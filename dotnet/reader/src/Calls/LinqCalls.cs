using System;
using System.Collections.Generic;
using System.Linq;

namespace TaskGraph.Reading
{
    /// <summary>Lists that are made of others, and Select.</summary>
    internal sealed class LinqCalls : ICallRule
    {
        private const int MostItems = 300;

        private readonly Machine machine;

        public LinqCalls(Machine machine)
        {
            this.machine = machine;
        }

        public bool TryRun(Call call, out PathNode next)
        {
            next = null;
            if (call.Type != "System.Linq.Enumerable" || call.Arguments.Count == 0)
            {
                return false;
            }
            List<Value> items = ItemsOf(call);
            if (items != null)
            {
                next = call.Give(machine.NewObject(call.State, items));
                return true;
            }
            items = call.State.ItemsOf(call.Arguments[0]);
            var lambda = call.Arguments.Count > 1 ? call.Arguments[1] as DelegateValue : null;
            if (items != null && call.Name == "Select" && lambda != null)
            {
                next = machine.Bodies.ForEach(call.State, items, lambda);
                return true;
            }
            Value many = lambda != null && IsOfTasks(lambda) ? new Mark(MarkKind.Many, lambda) : call.Arguments[0];
            bool isMany = many is Mark mark && mark.Kind == MarkKind.Many;
            if (isMany && !(lambda == null ? call.Arguments.Count == 1 : call.Name == "Select"))
            {
                throw call.Refuse(RefusalCode.List, call.Name + " over tasks whose number isn't known");
            }
            next = isMany ? call.Give(many) : null;
            return isMany;
        }

        /// <summary>The items of the list that a call gives; null where they aren't known.</summary>
        private List<Value> ItemsOf(Call call)
        {
            if (call.Name == "Range" && call.Arguments[0] is Number first && call.Arguments[1] is Number count && count.Amount <= MostItems)
            {
                return Enumerable.Range(0, (int)count.Amount).Select(it => (Value)new Number(first.Amount + it)).ToList();
            }
            List<Value> items = call.State.ItemsOf(call.Arguments[0]);
            if (items == null)
            {
                return null;
            }
            switch (call.Name)
            {
                case "ToArray":
                case "ToList":
                case "AsEnumerable":
                    return items;
                case "Append":
                    return items.Concat(new[] { call.Arguments[1] }).ToList();
                case "Prepend":
                    return new[] { call.Arguments[1] }.Concat(items).ToList();
                case "Concat":
                    List<Value> others = call.State.ItemsOf(call.Arguments[1]);
                    return others == null ? null : items.Concat(others).ToList();
                default:
                    return null;
            }
        }

        private bool IsOfTasks(DelegateValue lambda) => Types.IsTask(lambda.Method.ReturnType) || machine.Uses.Touches(lambda);
    }
}
