/* Which features the processor has, as glibc (2.33 or later) tells them: a program for x86-64-v2 asks as it begins, and ends
   with exit status 127 where one is missing. Leaf 0 is that of CPUID's function 1, leaf 2 that of 0x80000001; eight registers
   each, first what the processor has, then what is in use. */
#ifndef TASKGRAPH_X86_H
#define TASKGRAPH_X86_H

#include <cpuid.h>

#define LEAVES 3
#define REGISTERS 4

const unsigned *__x86_get_cpuid_feature_leaf(unsigned leaf)
{
    /* (leaf 1 stays empty, and stands for each that isn't known) */
    static unsigned found[LEAVES][2 * REGISTERS];
    if (leaf >= LEAVES)
        leaf = 1;
    unsigned *it = found[leaf];
    if (leaf != 1)
        __get_cpuid(leaf == 0 ? 1 : 0x80000001, &it[0], &it[1], &it[2], &it[3]);
    for (int at = 0; at < REGISTERS; at++)
        it[REGISTERS + at] = it[at];
    return it;
}

#endif
