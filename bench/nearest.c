/* The nearest bit of each page file that is named, and building it; bench/nearest makes the files and runs it.
 *
 *   nearest time FILE ..     in one process, in turns: of each file a line with the medians in ns of snp_cpuid_build and of snp_cpuid_nearest, and
 *                            the answer, with tabs between
 *   nearest count FILE ..    one call of each, for counts of their instructions: two lines a file */
#define SNP_CPUID_RAW
#include "../include/snp_cpuid.h"
#include "timing.h"

#include <stdio.h>
#include <string.h>

enum { CALLS = 200, MOST_BYTES = 65536 };

static uint8_t pages[MOST_BYTES];
static size_t length;
static volatile uint64_t sink;

static void build(int calls)
{
    for (int c = 0; c < calls; c++)
        sink += snp_cpuid_build(pages, length, false, 1).row_count;
}

static void nearest(int calls)
{
    for (int c = 0; c < calls; c++)
        sink += snp_cpuid_nearest(pages, length, false, 1).page;
}

static double ns(void (*run)(int calls))
{
    double t = now();
    run(CALLS);
    return (now() - t) / CALLS;
}

static void measure(void)
{
    double builds[ROUNDS], searches[ROUNDS];
    for (int i = 0; i < ROUNDS; i++) {
        builds[i] = ns(build);
        searches[i] = ns(nearest);
    }
    struct snp_cpuid_nearest_answer a = snp_cpuid_nearest(pages, length, false, 1);
    printf("%.0f\t%.0f\t", median(builds), median(searches));
    if (a.number)
        printf("refusal %u\n", (unsigned)a.number);
    else
        printf("page %llu, entry %u, %s bit %u\n", (unsigned long long)a.page, (unsigned)a.entry,
               (const char *const[]){"EAX", "EBX", "ECX", "EDX"}[a.register_index], (unsigned)a.bit);
}

/* callgrind.py reads the counts behind each call */
static __attribute__((noinline)) void counted(void (*run)(int calls))
{
    run(1);
    puts("counted");
}

static __attribute__((noinline)) void count_both(void)
{
    counted(build);
    counted(nearest);
}

int main(int argc, char **argv)
{
    for (int k = 2; k < argc; k++) {
        FILE *f = fopen(argv[k], "rb");
        if (!f) {
            fprintf(stderr, "nearest: cannot read %s\n", argv[k]);
            return 2;
        }
        length = fread(pages, 1, sizeof pages, f);
        fclose(f);
        if (strcmp(argv[1], "count"))
            measure();
        else
            count_both();
    }
    return 0;
}
