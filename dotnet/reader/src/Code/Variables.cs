using Mono.Cecil;
using Mono.Cecil.Cil;

namespace TaskGraph.Reading
{
    /// <summary>Which variables an instruction reads and writes.</summary>
    internal static class Variables
    {
        /// <summary>The local variable that it writes, or -1.</summary>
        public static int Stored(Instruction instruction)
        {
            Code code = instruction.OpCode.Code;
            if (code >= Code.Stloc_0 && code <= Code.Stloc_3)
            {
                return code - Code.Stloc_0;
            }
            return code == Code.Stloc || code == Code.Stloc_S ? ((VariableDefinition)instruction.Operand).Index : -1;
        }

        /// <summary>The local variable that it reads, or whose address it takes, or -1.</summary>
        public static int Loaded(Instruction instruction)
        {
            Code code = instruction.OpCode.Code;
            if (code >= Code.Ldloc_0 && code <= Code.Ldloc_3)
            {
                return code - Code.Ldloc_0;
            }
            return code == Code.Ldloc || code == Code.Ldloc_S || IsAddress(instruction)
                ? ((VariableDefinition)instruction.Operand).Index
                : -1;
        }

        /// <summary>Whether it takes the address of a local variable.</summary>
        public static bool IsAddress(Instruction instruction) =>
            instruction.OpCode.Code == Code.Ldloca || instruction.OpCode.Code == Code.Ldloca_S;

        /// <summary>The place of an argument: that of the object comes first.</summary>
        public static int ArgumentOf(MethodDefinition method, Instruction instruction)
        {
            Code code = instruction.OpCode.Code;
            if (code >= Code.Ldarg_0 && code <= Code.Ldarg_3)
            {
                return code - Code.Ldarg_0;
            }
            return ((ParameterDefinition)instruction.Operand).Index + (method.HasThis ? 1 : 0);
        }
    }
}
