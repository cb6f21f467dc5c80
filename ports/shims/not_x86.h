/* A program that was proved for x86-64-v2 asks, as it begins, whether the processor is one. Compiled for another processor
   it uses none of its instructions, so that the answer is yes. */
#ifndef TASKGRAPH_NOT_X86_H
#define TASKGRAPH_NOT_X86_H

const unsigned *__x86_get_cpuid_feature_leaf(unsigned leaf)
{
    static const unsigned every[8] = {~0u, ~0u, ~0u, ~0u, ~0u, ~0u, ~0u, ~0u};
    (void)leaf;
    return every;
}

#endif
