using System;
using System.Collections.Generic;
using System.Reflection;
using System.Threading;
using System.Threading.Tasks;

namespace TaskGraph.Reading.Tests
{
    /// <summary>Tests that ask the program.</summary>
    internal static class AnswerTests
    {
        private static readonly string Own = Assembly.GetExecutingAssembly().Location;

        public static void ClaimsThatHoldAreVerified()
        {
            GraphReader.Read(typeof(Small), nameof(Small.Import)).Claims.After("Load", "Close").Verify();
        }

        public static void AClaimThatFailsIsThrown()
        {
            ReadClaims claims = GraphReader.Read(typeof(Small), nameof(Small.Import)).Claims.Runs("Close");
            string told = Check.Throws<ClaimException>(() => claims.Verify()).Message;
            Check.Equal(true, told.Contains("claim 1 fails") && told.Contains("in Small.Import"));
        }

        public static void ASafeJobDoesNotFail()
        {
            GraphReader.Read(typeof(Small), nameof(Small.Import)).Safe("Load").Claims.Runs("Close").Verify();
        }

        public static void ATokenEndsTheSearch()
        {
            ReadGraph import = GraphReader.Read(Own, "Small.Import");
            import.Claims.After("Load", "Close");
            Check.Throws<OperationCanceledException>(() => import.Verify(token: new CancellationToken(true)));
            import.Verify(limit: TimeSpan.FromMinutes(1));
        }

        public static void ARunOfTheDocumentIsFound()
        {
            ReadGraph import = GraphReader.Read(Own, "Small.Import");
            import.Compare("{\"ended\": {\"Load\": \"Faulted\", \"Close\": \"Canceled\"}}");
            import.Compare(new Dictionary<string, TaskStatus> { { "Load", TaskStatus.RanToCompletion } });
        }

        public static void AnotherRunIsThrown()
        {
            ReadGraph import = GraphReader.Read(Own, "Small.Import");
            Check.Throws<ClaimException>(() => import.Compare("{\"ended\": {\"Load\": \"Faulted\", \"Close\": \"RanToCompletion\"}}"));
            Check.Throws<ArgumentException>(() => import.Compare("{\"ended\": {\"Nothing\": \"Faulted\"}}"));
        }

        public static void WithoutAProgramItIsSaidWhatToSet()
        {
            string kept = Environment.GetEnvironmentVariable("TASKGRAPH");
            Environment.SetEnvironmentVariable("TASKGRAPH", "/nothing/there");
            var thrown = Check.Throws<InvalidOperationException>(() => GraphReader.Read(Own, "Small.Import").Claims.After("Load", "Close").Verify());
            Environment.SetEnvironmentVariable("TASKGRAPH", kept);
            Check.Equal(true, thrown.Message.Contains("TASKGRAPH"));
        }
    }
}
