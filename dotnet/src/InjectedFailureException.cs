using System;

namespace TaskGraph
{
    /// <summary>What a job throws that <see cref="RunOptions.Fail"/> lets fail.</summary>
    public sealed class InjectedFailureException : Exception
    {
        /// <summary>Makes the exception for the job of a site.</summary>
        public InjectedFailureException(string site)
            : base("the job " + site + " was let fail")
        {
        }
    }
}
