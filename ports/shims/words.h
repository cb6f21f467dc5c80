/* The words of the command line, as the program's object file asks for them. Nothing is included, since the recipe for macOS
   has no headers: long long has 64 bits on each system that there is a program for. */
#ifndef TASKGRAPH_WORDS_H
#define TASKGRAPH_WORDS_H

static int word_count;
static char **word_list;

long long rattle_arg_count(void)
{
    return word_count;
}

/* Copies a word without its final 0, and gives its length: -1 where there is no such word, -2 where it doesn't fit. */
long long rattle_arg(unsigned long long at, unsigned char *to, unsigned long long room)
{
    if (at >= (unsigned long long)word_count || !word_list[at])
        return -1;
    const char *word = word_list[at];
    unsigned long long length = 0;
    for (; word[length]; length++) {
        if (length == room)
            return -2;
        to[length] = (unsigned char)word[length];
    }
    return (long long)length;
}

#endif
