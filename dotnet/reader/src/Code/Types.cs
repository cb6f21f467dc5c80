using System;
using System.Collections.Generic;
using System.Linq;
using Mono.Cecil;

namespace TaskGraph.Reading
{
    /// <summary>What is asked of types and methods of an assembly.</summary>
    internal static class Types
    {
        public const string Tasks = "System.Threading.Tasks.";
        public const string Token = "System.Threading.CancellationToken";
        public const string Source = "System.Threading.CancellationTokenSource";
        private const string AsyncAttribute = "AsyncStateMachineAttribute";
        private const int MostBases = 10;

        private static readonly HashSet<string> TaskTypes = new HashSet<string>
        {
            Tasks + "Task", Tasks + "Task`1", Tasks + "ValueTask", Tasks + "ValueTask`1",
        };

        /// <summary>Whether it is Task or ValueTask, with a result or without.</summary>
        public static bool IsTask(TypeReference type) =>
            !(type is ArrayType) && TaskTypes.Contains(type.GetElementType().FullName);

        public static bool IsAwaiter(TypeReference type) => type.FullName.Contains("Awaiter");

        public static bool IsVoid(TypeReference type) => type.FullName == "System.Void";

        public static bool IsToken(TypeReference type) => type.FullName == Token;

        public static bool IsBool(TypeReference type) => type.FullName == "System.Boolean";

        /// <summary>Whether a compiler made it: a closure or a state machine.</summary>
        public static bool IsGenerated(TypeReference type) => IsGeneratedName(type.Name);

        public static bool IsGeneratedName(string name) => name.StartsWith("<", StringComparison.Ordinal);

        /// <summary>The definition; null where its assembly isn't there.</summary>
        public static TypeDefinition Find(TypeReference type)
        {
            try
            {
                return type?.Resolve();
            }
            catch (AssemblyResolutionException)
            {
                return null;
            }
        }

        /// <summary>The definition; null where its assembly isn't there.</summary>
        public static MethodDefinition Find(MethodReference method)
        {
            try
            {
                return method?.Resolve();
            }
            catch (AssemblyResolutionException)
            {
                return null;
            }
        }

        /// <summary>Whether a field is written only by the constructor.</summary>
        public static bool IsReadOnly(FieldReference field)
        {
            try
            {
                return field.Resolve()?.IsInitOnly ?? false;
            }
            catch (AssemblyResolutionException)
            {
                return false;
            }
        }

        public static bool IsException(TypeReference type) => Bases(type).Any(it => it.FullName == "System.Exception");

        /// <summary>Whether a type is another one or derives from it; null where a base isn't known.</summary>
        public static bool? DerivesFrom(TypeReference type, TypeReference other)
        {
            TypeReference last = null;
            foreach (TypeReference it in Bases(type))
            {
                if (it.FullName == other.FullName)
                {
                    return true;
                }
                last = it;
            }
            return last == null || Find(last) == null ? (bool?)null : false;
        }

        /// <summary>The type that a call returns, with the arguments of generic types put in.</summary>
        public static TypeReference ReturnOf(MethodReference method)
        {
            if (!(method.ReturnType is GenericParameter parameter))
            {
                return method.ReturnType;
            }
            IList<TypeReference> given = parameter.Owner is MethodReference
                ? (method as GenericInstanceMethod)?.GenericArguments
                : (method.DeclaringType as GenericInstanceType)?.GenericArguments;
            return given != null && parameter.Position < given.Count ? given[parameter.Position] : method.ReturnType;
        }

        public static bool IsAsync(MethodDefinition method) =>
            method.CustomAttributes.Any(it => it.AttributeType.Name == AsyncAttribute);

        /// <summary>The method that has the code: that of the state machine for an async one.</summary>
        public static MethodDefinition CodeOf(MethodDefinition method)
        {
            var attribute = method.CustomAttributes.FirstOrDefault(it => it.AttributeType.Name == AsyncAttribute);
            return attribute == null ? method : MoveNextOf(Find((TypeReference)attribute.ConstructorArguments[0].Value));
        }

        public static MethodDefinition MoveNextOf(TypeDefinition machine) => machine.Methods.First(it => it.Name == "MoveNext");

        /// <summary>What a variable of this type is before it is written.</summary>
        public static Value DefaultOf(TypeReference type)
        {
            if (IsToken(type))
            {
                return new TokenValue(null);
            }
            return type.IsPrimitive ? new Number(0) : (Value)new NullValue();
        }

        /// <summary>A type with all types that are nested in it.</summary>
        public static IEnumerable<TypeDefinition> WithNested(TypeDefinition type) =>
            new[] { type }.Concat(type.NestedTypes.SelectMany(WithNested));

        /// <summary>The outermost type around a type.</summary>
        public static TypeDefinition Outermost(TypeDefinition type) =>
            type.DeclaringType == null ? type : Outermost(type.DeclaringType);

        private static IEnumerable<TypeReference> Bases(TypeReference type)
        {
            TypeReference it = type;
            for (int count = 0; count < MostBases && it != null; count++)
            {
                yield return it;
                it = Find(it)?.BaseType;
            }
        }
    }
}
