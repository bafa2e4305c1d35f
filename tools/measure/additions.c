// How many additions the processor does at once: the time of so many in turn by the time of as many that don't wait for
// each other. Some 4 where its core works for it alone, some 2 where the core's other thread works for another.
#include <stdio.h>
#include <time.h>

#define EIGHT(it) it it it it it it it it

static double seconds(void) {
    struct timespec now;
    clock_gettime(CLOCK_MONOTONIC, &now);
    return now.tv_sec + now.tv_nsec * 1e-9;
}

int main(void) {
    unsigned long a = 0, b = 0, c = 0, d = 0;
    double start = seconds();
    for (int i = 0; i < 20000000; i++)
        __asm__ volatile(EIGHT("inc %0\n inc %0\n inc %0\n inc %0\n") : "+r"(a));
    double in_turn = seconds() - start;
    start = seconds();
    for (int i = 0; i < 20000000; i++)
        __asm__ volatile(EIGHT("inc %0\n inc %1\n inc %2\n inc %3\n") : "+r"(a), "+r"(b), "+r"(c), "+r"(d));
    printf("%f\n", in_turn / (seconds() - start));
}
