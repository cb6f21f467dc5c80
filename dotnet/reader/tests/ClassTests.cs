using System;
using System.Collections.Generic;
using System.Linq;
using System.Reflection;
using System.Threading.Tasks;
using Mono.Cecil;
using Mono.Cecil.Cil;

namespace TaskGraph.Reading.Tests
{
    /// <summary>Tests of the classes, each of which is small.</summary>
    internal static class ClassTests
    {
        private static readonly string Own = Assembly.GetExecutingAssembly().Location;

        public static void NamesBecomeIdentifiers()
        {
            Check.Sequence(new[] { "load", "x1", "a_b", "x", "__" }.Select(Naming.Identifier), "load", "x1", "a_b", "x", "x");
            Check.Equal("x1st", Naming.Identifier("1st"));
            Check.Equal(28, Naming.Identifier(new string('a', 60)).Length);
            Check.Equal("Load", Naming.OfTask("load"));
            Check.Equal("load", Naming.OfJob("Load"));
        }

        public static void FieldsHaveTheNamesOfTheirVariables()
        {
            Check.Sequence(new[] { "<count>5__1", "count", "<Name>k__BackingField" }.Select(Naming.OfField), "count", "count", "Name");
        }

        public static void MethodsAreNamedAsTheyAreWritten()
        {
            Check.Equal("Small.Import", Naming.Written(Method("Import")));
            Check.Equal("Small.Import", Naming.Written(Types.CodeOf(Method("Import"))));
        }

        public static void TextOfJsonIsEscaped()
        {
            Check.Equal("\"a\\\"b\\\\c\\u000ad\"", JsonText.Of("a\"b\\c\nd"));
        }

        public static void StatementsAreWritten()
        {
            Check.Equal("{\"work\": \"load\", \"may_fail\": true}", Statement.Work("load", true).ToJson());
            Check.Equal("\"observe\"", Statement.Observe().ToJson());
            Statement branch = Statement.When(Final.Faulted, new List<Statement>(), new List<Statement> { Statement.Throw("No") });
            Check.Equal("{\"when\": \"Faulted\", \"then\": [], \"else\": [{\"throw\": \"No\"}]}", branch.ToJson());
            Statement empty = Statement.If("dry", new List<Statement> { Statement.Return() }, new List<Statement>());
            empty.DropEmptyElse();
            Check.Equal("{\"if\": \"dry\", \"then\": [\"return\"]}", empty.ToJson());
        }

        public static void TasksStandBehindThoseThatTheyName()
        {
            var first = new DocumentTask("First", DocumentTask.Root) { Body = new List<Statement>() };
            var next = new DocumentTask("Next", DocumentTask.Continuation) { After = first, Body = new List<Statement>() };
            var all = new DocumentTask("All", DocumentTask.All) { Of = new List<DocumentTask> { next, first } };
            var document = new ReadDocument(new[] { all, next, first }, new string[0], new Dictionary<PathToken, string>(), null);
            Check.Sequence(document.Tasks.Select(it => it.Name), "First", "Next", "All");
        }

        public static void SignalsAreEqualByTaskAndOption()
        {
            var task = new DocumentTask("Load", DocumentTask.Root);
            Check.Equal(1, Signal.Distinct(new[] { Signal.Ran(task), Signal.Ran(task) }).Count);
            Check.Equal(2, Signal.Distinct(new[] { Signal.Ran(task), Signal.Faulted(task) }).Count);
            Check.Equal("Load:OnlyOnFaulted", Signal.Faulted(task).ToString());
        }

        public static void NamesOfADocumentAreFree()
        {
            var builder = new DocumentBuilder(new MethodPaths("M", null, new PathTask[0], new Dictionary<string, string> { { "u1", "dry" }, { "u2", "dry" } }), new Notes());
            Check.Sequence(new[] { "Load", "Load", "Load" }.Select(builder.TaskName), "Load", "Load_2", "Load_3");
            Check.Sequence(new[] { "u1", "u2", "u1" }.Select(builder.InputName), "dry", "dry_2", "dry");
            Action forget = builder.Remember();
            builder.TaskName("Save");
            forget();
            Check.Equal("Save", builder.TaskName("Save"));
        }

        public static void AssumptionsStandOnce()
        {
            var notes = new Notes();
            notes.Add(Assumption.Field, "A.cs:1 in A.B", "last");
            notes.Add(Assumption.Field, "A.cs:1 in A.B", "last");
            notes.Add(Assumption.Field, "A.cs:2 in A.B");
            Check.Sequence(notes.Lines, "a field keeps the task or source that was put there: A.cs:1 in A.B (last); A.cs:2 in A.B");
        }

        public static void EachRefusalSaysWhatToDo()
        {
            var codes = Enum.GetValues(typeof(RefusalCode)).Cast<RefusalCode>().ToList();
            Check.Equal(codes.Count, codes.Select(Refusals.WordOf).Distinct().Count());
            Check.Equal(true, codes.All(it => Refusals.AdviceOn(it).Length > 0));
            Check.Equal("cold-task", Refusals.WordOf(RefusalCode.ColdTask));
        }

        public static void LoopsAreCircles()
        {
            var sum = new MethodFlow(Method("Sum"));
            int branch = Enumerable.Range(0, sum.Code.Count).Last(it => sum.Code[it].OpCode.FlowControl == Mono.Cecil.Cil.FlowControl.Cond_Branch);
            Check.Equal(true, sum.Circles.Through(branch).Count > 3);
            Check.Equal(0, sum.Circles.Through(0).Count);
            Check.Equal(0, new MethodFlow(Method("Sync")).Circles.Through(0).Count);
        }

        public static void VariablesAreLiveUntilTheyAreRead()
        {
            var sum = new MethodFlow(Method("Sum"));
            HashSet<string> begin = sum.Liveness.From(0, new List<Pending>());
            Check.Equal(0, begin.Count);
            int store = Enumerable.Range(0, sum.Code.Count).First(it => Variables.Stored(sum.Code[it]) == 0);
            Check.Equal(true, sum.Liveness.From(store + 1, new List<Pending>()).Contains(Liveness.Local(0)));
        }

        public static void MethodsThatTouchTasksAreKnown()
        {
            var uses = new TaskUse();
            Check.Equal(false, uses.Touches(Method("Sync")));
            Check.Equal(false, uses.Touches(Method("Load")));
            Check.Equal(true, uses.Touches(Method("Import")));
            Check.Equal(true, uses.Touches(Method("Release")));
        }

        public static void ExceptionsAreToldByTheirTypes()
        {
            Check.Equal(true, Types.DerivesFrom(TypeOf<ArgumentNullException>(), TypeOf<ArgumentException>()));
            Check.Equal(false, Types.DerivesFrom(TypeOf<ArgumentException>(), TypeOf<ArgumentNullException>()));
            Check.Equal(null, Types.DerivesFrom(null, TypeOf<ArgumentException>()));
        }

        public static void ValuesAreEqualByTheirKeys()
        {
            Check.Equal(new Number(1).Key, Number.Of(true).Key);
            Check.Equal(null, new Unknown("u1", "x", null).Truth);
            Check.Equal(false, new NullValue().Truth);
            Check.Equal(true, new TextValue("").Truth);
            Check.Equal(false, Mark.Not(new Number(1)).Key == Mark.EndsAs(Final.Faulted).Key);
        }

        public static void OptionsAreReadByTheirNumbers()
        {
            ReadGraph release = GraphReader.Read(Own, "Small.Release");
            DocumentTask close = release.Result.Document.Tasks.Single(it => it.Name == "Close");
            Check.Sequence(close.Options, "ExecuteSynchronously", "OnlyOnFaulted");
        }

        public static void AnAttributeSaysThatAJobIsSafe()
        {
            string document = GraphReader.Read(Own, "Small.Import").ToJson();
            Check.Equal(true, document.Contains("{\"work\": \"close\"}"));
            Check.Equal(true, document.Contains("{\"work\": \"load\", \"may_fail\": true}"));
        }

        public static void WhatIsAssumedIsTold()
        {
            ReadGraph caught = GraphReader.Read(Own, "Small.Caught");
            Check.Sequence(caught.Used, Assumption.Cancellations, Assumption.Filter, Assumption.NoCancel);
            Check.Equal("read from Small.Caught, which ends as Load", caught.Notes[0]);
            ReadGraph canceled = GraphReader.Read(Own, "Small.Caught").MayCancel();
            Check.Sequence(canceled.Used, Assumption.Cancellations, Assumption.Filter);
        }

        public static void AMethodIsChosenByItsParameters()
        {
            Check.Throws<ArgumentException>(() => GraphReader.Read(Own, "Small.Same"));
            Check.Throws<ArgumentException>(() => GraphReader.Read(Own, "Small.None"));
            Check.Equal("Load", GraphReader.Read(Own, "Small.Same/2").Tasks.Single());
        }

        public static void NothingCanBeSaidOnceItIsRead()
        {
            ReadGraph import = GraphReader.Read(Own, "Small.Import");
            Check.Equal("Import", import.Ends);
            Check.Throws<InvalidOperationException>(() => import.Safe("Load"));
        }

        public static void ClaimsAreWritten()
        {
            ReadGraph import = GraphReader.Read(Own, "Small.Import");
            ReadClaims claims = import.Claims;
            claims.Named("order").NoFailure().After("Load", "Close").Claims.Never("Close", import.Given.Ended("Load", TaskStatus.Faulted));
            string first = "{\"name\": \"order\", \"given\": [\"no_failure\"], \"after\": [\"Load\", \"Close\"]}";
            string second = "{\"given\": [{\"ended\": \"Load\", \"in\": [\"Faulted\"]}], \"never\": \"Close\"}";
            Check.Equal("[" + first + ", " + second + "]", claims.ToJson());
            Check.Throws<ArgumentException>(() => claims.Runs("Nothing"));
            claims.NoRequest();
            Check.Throws<InvalidOperationException>(() => claims.Verify());
        }

        public static void LinesStandBesideEvents()
        {
            var load = new DocumentTask("Load", DocumentTask.Root) { Body = new List<Statement>(), Origin = "A.cs:7 in A.B" };
            var document = new ReadDocument(new[] { load }, new string[0], new Dictionary<PathToken, string>(), null);
            string told = new SourceLines(document).Beside("claim 1 fails: x\n  w1 begin Load\n  claim 1 fails here\n    event 1: Load begins");
            string marked = "  w1 begin Load".PadRight(44) + "// A.cs:7 in A.B";
            Check.Equal("claim 1 fails: x\n" + marked + "\n  claim 1 fails here\n    event 1: Load begins", told);
        }

        public static void EndsOfARunAreRead()
        {
            IReadOnlyDictionary<string, TaskStatus> ends = RunComparison.EndsOf("{\"journal\":\"\",\"ended\":{\"Load\":\"Faulted\",\"Save\":\"Canceled\"}}");
            Check.Sequence(ends.Select(it => it.Key + it.Value), "LoadFaulted", "SaveCanceled");
            Check.Throws<ArgumentException>(() => RunComparison.EndsOf("{}"));
        }

        public static void WordsOfTheCommandAreRead()
        {
            CommandWords words = CommandWords.Of(new[] { "A.dll", "A.B", "--safe=Close,Log", "--job", "Get", "--verify", "--claims", "c.json" });
            Check.Sequence(words.Settings.Safe.Concat(words.Settings.Jobs), "Close", "Log", "Get");
            Check.Equal("c.json", words.Claims);
            foreach (string wrong in new[] { "", "A.dll", "A.dll A.B C", "A.dll A.B --job", "A.dll A.B --what", "A.dll A.B --list" })
            {
                Check.Throws<WrongWordsException>(() => CommandWords.Of(wrong.Split(new[] { ' ' }, StringSplitOptions.RemoveEmptyEntries)));
            }
        }

        public static void WaitAsyncMayEndInEachWay()
        {
            MethodDefinition method = Method("Waited");
            foreach (Instruction call in CallsOfLater(method))
            {
                var stub = (MethodReference)call.Operand;
                var real = new MethodReference("WaitAsync", stub.ReturnType, stub.ReturnType) { HasThis = true };
                real.Parameters.Add(stub.Parameters[1]);
                call.OpCode = OpCodes.Callvirt;
                call.Operand = real;
            }
            ReadResult result = Read(method);
            DocumentTask waited = result.Document.Tasks.Single(it => it.Name == "Load_or_stop");
            Check.Equal(DocumentTask.Root, waited.Kind);
            Check.Sequence(waited.Body.Select(it => it.ToJson()), "{\"work\": \"load_or_stop\", \"may_fail\": true}", "{\"check\": \"Load_or_stop_canceled\"}");
            Check.Equal(waited, result.Document.Tasks.Single(it => it.Name == "Close").After);
            Check.Equal(true, result.Assumptions.Contains(Assumption.Completion));
        }

        public static void TheEndOfATaskThatWasAwaitedIsKnown()
        {
            ReadGraph told = GraphReader.Read(Own, "Small.Told");
            Check.Equal(0, told.Result.Document.Inputs.Count);
            DocumentTask sync = told.Result.Document.Tasks.Single(it => it.Name == "Sync");
            Check.Equal("Load", sync.After.Name);
            Check.Sequence(sync.Options, "OnlyOnFaulted");
        }

        public static void AWaitWithATimeAndATokenGoesEachWay()
        {
            ReadResult result = Read(Method("Limited"));
            Check.Sequence(result.Document.Inputs, "in_time", "before_stop");
            Check.Equal(true, result.Assumptions.Contains(Assumption.InTime) && result.Assumptions.Contains(Assumption.Blocking));
            Check.Equal(1, result.Document.Tasks.Count(it => it.Name == "Close"));
            ReadResult forever = Read(Method("Forever"));
            Check.Equal(0, forever.Document.Inputs.Count);
            Check.Equal(false, forever.Assumptions.Contains(Assumption.InTime));
        }

        public static void TheNumberOfAWinnerIsThatOfATask()
        {
            ReadResult result = Read(Method("First"));
            Check.Sequence(result.Document.Inputs, "in_time");
            Check.Sequence(result.Document.Tasks.Single(it => it.Kind == DocumentTask.Any).Of.Select(it => it.Name), "Load", "Load_2");
        }

        public static void AWhenAnyOverWhatHasEndedIsRefused()
        {
            Check.Equal(RefusalCode.Join, Check.Throws<ReadException>(() => Read(Method("Over"))).Code);
        }

        public static void TasksInASpanAreJoined()
        {
            foreach (string name in new[] { "OverArray", "OverBuffer" })
            {
                MethodDefinition method = Method(name);
                method.Module.GetType("Buffers").Name = "<PrivateImplementationDetails>";
                foreach (Instruction call in CallsOfLater(method))
                {
                    var stub = (MethodReference)call.Operand;
                    var real = new MethodReference("WhenAll", stub.ReturnType, stub.ReturnType);
                    real.Parameters.Add(stub.Parameters[0]);
                    call.Operand = real;
                }
                DocumentTask all = Read(method).Document.Tasks.Single(it => it.Name == "All");
                Check.Sequence(all.Of.Select(it => it.Name), "Load", "Load_2");
            }
        }

        private static ReadResult Read(MethodDefinition method) =>
            new MethodReader(new ReadSettings(), new MarkerLowering()).Read(method);

        /// <summary>The calls that stand for others.</summary>
        private static IEnumerable<Instruction> CallsOfLater(MethodDefinition method) =>
            Types.CodeOf(method).Body.Instructions.Where(it => (it.Operand as MethodReference)?.DeclaringType.Name == "Later");

        private static MethodDefinition Method(string name) => new TeamAssembly(Own).One("Small." + name);

        private static TypeReference TypeOf<T>() =>
            ModuleDefinition.ReadModule(typeof(T).Assembly.Location).GetType(typeof(T).FullName);
    }
}
