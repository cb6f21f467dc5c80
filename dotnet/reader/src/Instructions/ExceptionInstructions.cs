using System;
using Mono.Cecil.Cil;

namespace TaskGraph.Reading
{
    /// <summary>Throws, and the ends of protected blocks.</summary>
    internal sealed class ExceptionInstructions
    {
        private readonly Machine machine;

        public ExceptionInstructions(Machine machine)
        {
            this.machine = machine;
        }

        public void AddTo(Acts acts)
        {
            acts.On(Throw, Code.Throw);
            acts.On(state => machine.Exceptions.Throw(state, state.Top.Caught), Code.Rethrow);
            acts.On(state => Leave(state), Code.Leave, Code.Leave_S);
            acts.On(EndFinally, Code.Endfinally);
            acts.On(EndFilter, Code.Endfilter);
        }

        private PathNode Throw(PathState state)
        {
            Value value = state.Top.Pop();
            return machine.Exceptions.Throw(state, value as ThrownValue ?? ThrownValue.Unnamed((value as Unknown)?.Type));
        }

        private PathNode Leave(PathState state)
        {
            state.Top.Stack.Clear();
            machine.Exceptions.Leave(state, machine.FlowOf(state.Top.Method).PlaceOf((Instruction)state.Top.Instruction.Operand));
            return null;
        }

        private PathNode EndFinally(PathState state)
        {
            Pending behind = state.Top.TakePending();
            if (!behind.IsThrow)
            {
                machine.Exceptions.Leave(state, behind.Target, behind.From, behind.Handler + 1);
                return null;
            }
            state.Top.At = behind.From;
            return machine.Exceptions.Dispatch(state, behind.Thrown, behind.Handler + 1);
        }

        private PathNode EndFilter(PathState state)
        {
            Value answer = state.Top.Pop();
            Pending behind = state.Top.TakePending();
            MethodFlow flow = machine.FlowOf(state.Top.Method);
            int start = flow.PlaceOf(flow.Handlers[behind.Handler].HandlerStart);
            Func<PathState, PathNode> yes = it => Exceptions.Catch(it, behind.Thrown, start);
            Func<PathState, PathNode> no = it =>
            {
                it.Top.At = behind.From;
                return machine.Exceptions.Dispatch(it, behind.Thrown, behind.Handler + 1);
            };
            return answer is Unknown asked ? machine.Branches.Both(state, asked, yes, no) : OnAnswer(state, answer, yes, no);
        }

        private PathNode OnAnswer(PathState state, Value answer, Func<PathState, PathNode> yes, Func<PathState, PathNode> no)
        {
            if (answer is Mark mark && mark.Kind == MarkKind.Not)
            {
                return mark.About is Unknown asked
                    ? machine.Branches.Both(state, asked, no, yes)
                    : OnAnswer(state, mark.About, no, yes);
            }
            if (answer.Truth.HasValue)
            {
                return answer.Truth.Value ? yes(state) : no(state);
            }
            return machine.Branches.Both(state, machine.Fresh("filter"), yes, no);
        }
    }
}
