using Mono.Cecil.Cil;

namespace TaskGraph.Reading
{
    /// <summary>Instructions that read and write arguments and local variables.</summary>
    internal sealed class VariableInstructions
    {
        public void AddTo(Acts acts)
        {
            acts.OnFrame(frame => frame.Push(frame.Arguments[Argument(frame)]), Code.Ldarg_0, Code.Ldarg_1, Code.Ldarg_2, Code.Ldarg_3, Code.Ldarg, Code.Ldarg_S);
            acts.OnFrame(frame => frame.Arguments[Argument(frame)] = frame.Pop(), Code.Starg, Code.Starg_S);
            acts.OnFrame(frame => frame.Push(Local(frame)), Code.Ldloc_0, Code.Ldloc_1, Code.Ldloc_2, Code.Ldloc_3, Code.Ldloc, Code.Ldloc_S);
            acts.OnFrame(StoreLocal, Code.Stloc_0, Code.Stloc_1, Code.Stloc_2, Code.Stloc_3, Code.Stloc, Code.Stloc_S);
            acts.On(state => Give(state, Address.OfArgument(state.Frames.Count - 1, Argument(state.Top))), Code.Ldarga, Code.Ldarga_S);
            acts.On(state => Give(state, Address.OfLocal(state.Frames.Count - 1, Variables.Loaded(state.Top.Instruction))), Code.Ldloca, Code.Ldloca_S);
        }

        private static int Argument(Frame frame) => Variables.ArgumentOf(frame.Method, frame.Instruction);

        private static Value Local(Frame frame) => frame.Locals[Variables.Loaded(frame.Instruction)];

        private static void StoreLocal(Frame frame) => frame.Locals[Variables.Stored(frame.Instruction)] = frame.Pop();

        private static PathNode Give(PathState state, Value value)
        {
            state.Top.Give(value);
            return null;
        }
    }
}
