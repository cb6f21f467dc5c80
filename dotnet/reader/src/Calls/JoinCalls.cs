namespace TaskGraph.Reading
{
    /// <summary>WhenAll and WhenAny.</summary>
    internal sealed class JoinCalls : NamedCalls
    {
        public JoinCalls(Machine machine)
            : base(machine)
        {
            On(call => Join(call, TaskShape.All, "All"), "WhenAll");
            On(call => Join(call, TaskShape.Any, "Any"), "WhenAny");
        }

        protected override bool Covers(Call call) => TaskTypes.Has(call);

        private PathNode Join(Call call, TaskShape shape, string name)
        {
            if (call.Arguments[0] is Mark many && many.Kind == MarkKind.Many)
            {
                return JoinMany(call, shape, (DelegateValue)many.About);
            }
            PathTask join = Machine.NewTask(shape, Naming.OfTask(Naming.OfVariable(call.Frame) ?? name), call.Where);
            join.Of = shape == TaskShape.Any
                ? Machine.Bodies.TasksOfAny(call.State, call.Arguments)
                : Machine.Bodies.TasksIn(call.State, call.Arguments);
            return Machine.Bodies.Make(call.State, join);
        }

        private PathNode JoinMany(Call call, TaskShape shape, DelegateValue made)
        {
            if (shape == TaskShape.Any)
            {
                throw call.Refuse(RefusalCode.List, "WhenAny over tasks whose number isn't known");
            }
            Machine.Bodies.DemandJobs(call.State, made);
            Machine.Notes.Add(Assumption.Many, call.Where);
            string name = "All_" + Naming.OfBody(made);
            return Machine.Jobs.Run(call.State, call.Method, name, Machine.Jobs.OneOf(call.State, name, Jobs.CapturedBy(call.State, made)));
        }
    }
}
