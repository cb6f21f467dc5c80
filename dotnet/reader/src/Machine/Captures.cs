using System.Collections.Generic;
using System.Linq;
using Mono.Cecil;
using Mono.Cecil.Cil;

namespace TaskGraph.Reading
{
    /// <summary>Which captured variables may change while a body runs that reads them.</summary>
    internal sealed class Captures
    {
        private static readonly string[] LambdaSigns = { "AnonStorey", "DisplayClass", "<>m__", ">b__" };

        private readonly Dictionary<string, bool> writtenByLambda = new Dictionary<string, bool>();
        private readonly Dictionary<string, int> writesOfMaker = new Dictionary<string, int>();

        /// <summary>Whether a field is a captured variable.</summary>
        public static bool IsCapture(FieldReference field) =>
            field.DeclaringType.Name.Contains("AnonStorey") || field.DeclaringType.Name.Contains("DisplayClass");

        /// <summary>Whether the variable is written by a lambda, or more than once by the method whose lambda reads it in
        /// this body.</summary>
        public bool MayChange(MethodDefinition body, FieldReference field)
        {
            return IsWrittenByLambda(field) || (IsLambda(body.FullName) && WritesOfMaker(field) > 1);
        }

        private static bool IsLambda(string name) => LambdaSigns.Any(name.Contains);

        private bool IsWrittenByLambda(FieldReference field)
        {
            if (!writtenByLambda.TryGetValue(field.FullName, out bool isWritten))
            {
                isWritten = Around(field).Where(it => IsLambda(it.FullName)).Any(it => it.Body.Instructions.Any(code => MayWrite(code, field)));
                writtenByLambda[field.FullName] = isWritten;
            }
            return isWritten;
        }

        private int WritesOfMaker(FieldReference field)
        {
            if (!writesOfMaker.TryGetValue(field.FullName, out int count))
            {
                IEnumerable<Instruction> code = Around(field).Where(it => !IsLambda(it.FullName)).SelectMany(it => it.Body.Instructions);
                count = code.Count(it => it.OpCode.Code == Code.Stfld && IsOf(it, field));
                writesOfMaker[field.FullName] = count;
            }
            return count;
        }

        /// <summary>The methods that can name a captured variable.</summary>
        private static IEnumerable<MethodDefinition> Around(FieldReference field)
        {
            TypeDefinition closure = Types.Find(field.DeclaringType);
            return closure == null
                ? Enumerable.Empty<MethodDefinition>()
                : Types.WithNested(Types.Outermost(closure)).SelectMany(it => it.Methods).Where(it => it.HasBody);
        }

        private static bool MayWrite(Instruction code, FieldReference field)
        {
            bool isAddressTaken = code.OpCode.Code == Code.Ldflda && !Types.IsAwaiter(field.FieldType) && !Types.IsToken(field.FieldType);
            return (code.OpCode.Code == Code.Stfld || isAddressTaken) && IsOf(code, field);
        }

        private static bool IsOf(Instruction code, FieldReference field) =>
            code.Operand is FieldReference it && it.FullName == field.FullName;
    }
}
