/* Takes and gives back ten blocks of 256 kilobytes: first one at a time, then always a new one before the one in use is given back.
   Says how many pages the last block lies below the first. */
#include <stdio.h>
#include <stdlib.h>

enum { SIZE = 1 << 18, ROUNDS = 10, PAGE = 4096 };

static long one_at_a_time(void)
{
    long first = 0;
    long last = 0;
    for (int round = 0; round < ROUNDS; round++) {
        void *block = malloc(SIZE);
        last = (long)block;
        if (round == 0)
            first = last;
        free(block);
    }
    return (first - last) / PAGE;
}

static long two_at_a_time(void)
{
    void *used = malloc(SIZE);
    long first = (long)used;
    for (int round = 1; round < ROUNDS; round++) {
        void *next = malloc(SIZE);
        free(used);
        used = next;
    }
    long last = (long)used;
    free(used);
    return (first - last) / PAGE;
}

int main(void)
{
    printf("one at a time: %ld pages\n", one_at_a_time());
    printf("two at a time: %ld pages\n", two_at_a_time());
    return 0;
}
