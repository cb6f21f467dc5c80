/* Memory, as the program's object file asks for it: an answer is a pair, {1, where} or {0, some place}. malloc and its like
   are declared by whoever includes this. No call asks for an alignment that malloc doesn't give. */
#ifndef TASKGRAPH_MEMORY_H
#define TASKGRAPH_MEMORY_H

struct answer {
    long long is_there;
    long long at;
};

static char nowhere;

static struct answer answer_of(void *at)
{
    return (struct answer){at != 0, (long long)(__INTPTR_TYPE__)(at ? at : &nowhere)};
}

/* The size as malloc takes it. What is more than half of what can be addressed becomes a size that each malloc refuses. */
static __SIZE_TYPE__ size_of(unsigned long long size, unsigned long long align)
{
    unsigned long long wanted = size ? size : align;
    return wanted > __PTRDIFF_MAX__ ? __SIZE_MAX__ : (__SIZE_TYPE__)wanted;
}

#endif
