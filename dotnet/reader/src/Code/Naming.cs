using System;
using System.Collections.Generic;
using System.Linq;
using System.Text;
using Mono.Cecil;
using Mono.Cecil.Cil;

namespace TaskGraph.Reading
{
    /// <summary>Names: of the code as it was written, and of tasks, jobs and inputs as a document takes them.</summary>
    internal static class Naming
    {
        private const int Longest = 28;
        private const string MoveNext = "MoveNext";

        /// <summary>The type and the method as they are written: a state machine and a lambda have their method's name.</summary>
        public static string Written(MethodDefinition method)
        {
            string name = method.Name, type = WrittenType(method.DeclaringType);
            if (name == MoveNext && IsAngled(method.DeclaringType.Name))
            {
                name = Angled(method.DeclaringType.Name);
            }
            else if (IsAngled(name))
            {
                // (a closure has the method's name, where its lambda has none)
                name = (name.StartsWith("<>", StringComparison.Ordinal)
                  ? Angled(method.DeclaringType.Name)
                  : Angled(name)) + " (lambda)";
            }
            return type + "." + name;
        }

        /// <summary>What a document takes for a name, of a text of the code.</summary>
        public static string Identifier(string text)
        {
            var name = new StringBuilder();
            foreach (char letter in text ?? "x")
            {
                name.Append(letter < 128 && (char.IsLetterOrDigit(letter) || letter == '_') ? letter : '_');
            }
            string plain = name.ToString().Trim('_');
            string begun = plain.Length == 0 || char.IsDigit(plain[0]) ? "x" + plain : plain;
            return begun.Length > Longest ? begun.Substring(0, Longest) : begun;
        }

        /// <summary>The name of a task: it begins in upper case.</summary>
        public static string OfTask(string text)
        {
            string name = Identifier(text);
            return char.ToUpperInvariant(name[0]) + name.Substring(1);
        }

        /// <summary>The name of a job: it begins in lower case.</summary>
        public static string OfJob(string name) => char.ToLowerInvariant(name[0]) + name.Substring(1);

        /// <summary>The variable that a field of a closure or a state machine stands for, or the property that it
        /// keeps.</summary>
        public static string OfField(string field) => field.StartsWith("<", StringComparison.Ordinal) && field.IndexOf('>') > 1
            ? Angled(field)
            : field;

        /// <summary>What a method is called as a job: a property by its own name, a local function as it is written.</summary>
        public static string OfCall(MethodReference method)
        {
            string name = WithoutAccess(method.Name);
            int local = name.IndexOf("g__", StringComparison.Ordinal);
            return IsAngled(name) && local > 0 ? name.Substring(local + "g__".Length).Split('|')[0] : name;
        }

        /// <summary>What a delegate's body is called: its method, or the first of the team's methods that a lambda
        /// calls.</summary>
        public static string OfBody(DelegateValue value)
        {
            MethodDefinition method = Types.Find(value.Method);
            if (method == null || !method.HasBody || !Types.IsGeneratedName(method.Name))
            {
                return OfCall(value.Method);
            }
            MethodReference first = Types.CodeOf(method).Body.Instructions.Where(IsCall).Select(it => (MethodReference)it.Operand)
                .FirstOrDefault(it => !it.DeclaringType.FullName.StartsWith("System.", StringComparison.Ordinal));
            return first == null ? "Body" : OfCall(first);
        }

        /// <summary>The variable in which the value of the call at hand is kept; null where that isn't seen.</summary>
        public static string OfVariable(Frame frame)
        {
            IList<Instruction> code = frame.Method.Body.Instructions;
            for (int at = frame.At + 1; at < code.Count && at < frame.At + 3; at++)
            {
                Code operation = code[at].OpCode.Code;
                if (operation == Code.Stfld && IsVariable((FieldReference)code[at].Operand))
                {
                    return OfField(((FieldReference)code[at].Operand).Name);
                }
                int variable = Variables.Stored(code[at]);
                if (variable >= 0)
                {
                    return Symbols.NameOf(frame.Method, variable);
                }
                if (operation != Code.Dup && operation != Code.Nop && operation != Code.Castclass)
                {
                    return null;
                }
            }
            return null;
        }

        /// <summary>The type around closures and state machines.</summary>
        private static string WrittenType(TypeDefinition type) =>
            Types.IsGenerated(type) && type.DeclaringType != null ? WrittenType(type.DeclaringType) : type.Name;

        private static string WithoutAccess(string name) =>
            name.StartsWith("get_", StringComparison.Ordinal) || name.StartsWith("set_", StringComparison.Ordinal) ? name.Substring(4) : name;

        private static bool IsVariable(FieldReference field) =>
            !field.Name.StartsWith("$", StringComparison.Ordinal) && !field.Name.Contains("__u");

        private static bool IsCall(Instruction it) =>
            it.Operand is MethodReference && (it.OpCode.Code == Code.Call || it.OpCode.Code == Code.Callvirt);

        private static bool IsAngled(string name) => name.StartsWith("<", StringComparison.Ordinal) && name.IndexOf('>') > 0;

        private static string Angled(string name) => name.Substring(1, name.IndexOf('>') - 1);
    }
}
