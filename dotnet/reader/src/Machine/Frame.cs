using System.Collections.Generic;
using System.Linq;
using Mono.Cecil;
using Mono.Cecil.Cil;

namespace TaskGraph.Reading
{
    /// <summary>A call that is followed.</summary>
    internal sealed class Frame
    {
        public Frame(MethodDefinition method, IEnumerable<Value> arguments)
        {
            Method = method;
            Arguments = arguments.ToArray();
            Locals = method.Body.Variables.Select(it => Types.DefaultOf(it.VariableType)).ToArray();
        }

        private Frame(Frame other)
        {
            Method = other.Method;
            At = other.At;
            Arguments = (Value[])other.Arguments.Clone();
            Locals = (Value[])other.Locals.Clone();
            Stack.AddRange(other.Stack);
            Pending.AddRange(other.Pending);
            Caught = other.Caught;
            Collects = other.Collects;
        }

        public MethodDefinition Method { get; }

        /// <summary>The number of the instruction that comes next.</summary>
        public int At { get; set; }

        public Value[] Arguments { get; }

        public Value[] Locals { get; }

        public List<Value> Stack { get; } = new List<Value>();

        public List<Pending> Pending { get; } = new List<Pending>();

        /// <summary>What a catch block has caught, for its rethrow.</summary>
        public ThrownValue Caught { get; set; }

        /// <summary>The list for which this call of a lambda gives an item; null for another call.</summary>
        public Collection Collects { get; set; }

        public Instruction Instruction => Method.Body.Instructions[At];

        public Frame Clone() => new Frame(this);

        public void Push(Value value) => Stack.Add(value);

        /// <summary>Puts a value on the stack and goes on.</summary>
        public void Give(Value value)
        {
            Stack.Add(value);
            At++;
        }

        public Value Pop()
        {
            if (Stack.Count == 0)
            {
                throw new ReadException(RefusalCode.Instruction, Symbols.Where(Method, At), "the stack is empty");
            }
            Value value = Stack[Stack.Count - 1];
            Stack.RemoveAt(Stack.Count - 1);
            return value;
        }

        /// <summary>Takes the last values off the stack, in the order in which they were put there.</summary>
        public List<Value> Pop(int count)
        {
            var values = new List<Value>();
            for (int taken = 0; taken < count; taken++)
            {
                values.Insert(0, Pop());
            }
            return values;
        }

        public Pending TakePending()
        {
            Pending last = Pending[Pending.Count - 1];
            Pending.RemoveAt(Pending.Count - 1);
            return last;
        }
    }
}
