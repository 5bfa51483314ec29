/* One table for a pool of servers, by a caller in C: document 02, P12.
 *
 *   gcc -std=c11 -O2 -Wall -Wextra -Werror -Iinclude -o target/pool tests/c/pool.c target/staticlib/libsnp_cpuid.a
 *   target/pool tests/data/epyc-milan.pages
 *
 * The servers are the pages of the file, and copies whose leaf 1 lacks FMA or MOVBE. Each row of the pool's table is the and of the servers', and
 * came from where the first server's did; bytes beyond the image are as they were, and all of them where the answer is a refusal. The last line has
 * the number of things compared. Exit status 1 where one is not as it must be.
 */
#define SNP_CPUID_RAW
#include "snp_cpuid.h"

#include <stdio.h>
#include <string.h>
#include "same.h"

enum { PAGE = 4096, SET = 2 * PAGE, MOST = SNP_CPUID_MOST_SERVERS + 1, LEAF_1 = 16 + 48, ROOM = SNP_CPUID_MOST_IMAGE_BYTES + 16, FILL = 0xA5 };

static uint8_t pages[MOST * SET];
static uint64_t lengths[MOST];

/* Server k is a copy of the first without some bits of a byte of leaf 1's ECX. */
static void copy(unsigned k, unsigned byte, uint8_t gone) {
    memcpy(pages + k * SET, pages, SET);
    pages[k * SET + LEAF_1 + 32 + byte] &= (uint8_t)~gone;
}

/* A pool's answer by all three functions: what its number and server must be, and where it is a refusal that nothing is found or written. */
static void answers(const char *what, const uint8_t *sets, size_t length, const uint64_t *given, size_t servers, uint32_t number, uint32_t server) {
    uint8_t out[ROOM], filled[ROOM];
    memset(out, FILL, ROOM);
    memset(filled, FILL, ROOM);
    struct snp_cpuid_pooled pooled = snp_cpuid_pool(sets, length, given, servers, false, 1);
    struct snp_cpuid_found found = snp_cpuid_pool_lookup(sets, length, given, servers, false, 1, 1, false, 0, true);
    struct snp_cpuid_written written = snp_cpuid_write_pool_image(sets, length, given, servers, false, 1, out, ROOM);
    same(pooled.number == number && pooled.server == server, what);
    same(found.found == (number == 0) && written.number == number, what);
    same(number == 0 ? pooled.row_count > 0 && written.length > 0 : pooled.row_count == 0 && written.length == 0, what);
    same(memcmp(out + written.length, filled, ROOM - written.length) == 0, what);
}

static uint32_t word(const uint8_t *at) {
    uint32_t number;
    memcpy(&number, at, 4); /* little-endian, as this machine is */
    return number;
}

/* Every row of the pool's image against the rows of three servers. */
static void rows(void) {
    uint8_t out[ROOM];
    struct snp_cpuid_pooled pooled = snp_cpuid_pool(pages, 3 * SET, lengths, 3, false, 1);
    struct snp_cpuid_written written = snp_cpuid_write_pool_image(pages, 3 * SET, lengths, 3, false, 1, out, ROOM);
    uint64_t count = 0, at = 0;
    for (; at < written.length; count++) {
        bool has_subleaf = out[at] == 2;
        uint32_t leaf = word(out + at + 1), subleaf = has_subleaf ? word(out + at + 5) : 0;
        struct snp_cpuid_found found = snp_cpuid_pool_lookup(pages, 3 * SET, lengths, 3, false, 1, leaf, has_subleaf, subleaf, true), all, one;
        const uint8_t *registers = out + at + (has_subleaf ? 9 : 5);
        all = snp_cpuid_lookup(pages, SET, false, 1, leaf, has_subleaf, subleaf, true);
        same(found.origin == all.origin && found.page == all.page && found.entry == all.entry, "a row came from the first server's entry");
        for (unsigned k = 1; k < 3; k++) {
            one = snp_cpuid_lookup(pages + k * SET, SET, false, 1, leaf, has_subleaf, subleaf, true);
            all.eax &= one.eax, all.ebx &= one.ebx, all.ecx &= one.ecx, all.edx &= one.edx;
        }
        same(found.eax == all.eax && found.ebx == all.ebx && found.ecx == all.ecx && found.edx == all.edx, "a row is the and of the servers'");
        same(word(registers) == all.eax && word(registers + 4) == all.ebx && word(registers + 8) == all.ecx && word(registers + 12) == all.edx,
             "the image has the row");
        at += has_subleaf ? 25 : 21;
    }
    same(at == written.length && count == pooled.row_count, "the image has as many rows as the pool's table");
    uint32_t first = snp_cpuid_lookup(pages, SET, false, 1, 1, false, 0, true).ecx, gone = 1u << 12 | 1u << 22;
    uint32_t left = snp_cpuid_pool_lookup(pages, 3 * SET, lengths, 3, false, 1, 1, false, 0, true).ecx;
    same((first & gone) == gone && left == (first & ~gone), "FMA and MOVBE went");
    same(pooled.max_extended_state == snp_cpuid_build(pages, SET, false, 1).max_extended_state, "the combined mask is the servers'");
}

int main(int count, char **words) {
    FILE *in = count == 2 ? fopen(words[1], "rb") : NULL;
    if (!in || fread(pages, 1, SET, in) != SET || word(pages + LEAF_1) != 1) {
        fprintf(stderr, "usage: pool PAGES, two pages whose second entry is leaf 1's\n");
        return 2;
    }
    fclose(in);
    for (unsigned k = 0; k < MOST; k++) {
        lengths[k] = SET;
        copy(k, 0, 0);
    }
    copy(1, 1, 1 << 4); /* FMA */
    copy(2, 2, 1 << 6); /* MOVBE */
    rows();
    for (size_t servers = 0; servers <= MOST; servers++)
        answers("the number of servers", pages, servers * SET, lengths, servers, servers < 2 || servers > SNP_CPUID_MOST_SERVERS ? 18 : 0, 0);

    answers("no slice and no lengths", NULL, 0, NULL, 0, 18, 0);
    answers("two sets of no bytes", NULL, 0, (const uint64_t[]){0, 0}, 2, 1, 0);
    answers("a length too short", pages, 2 * SET, (const uint64_t[]){SET, SET - 1}, 2, 18, 0);
    answers("a sum that wraps", pages, 2 * SET, (const uint64_t[]){UINT64_MAX, 2 * SET + 1}, 2, 18, 0);
    answers("a set that ends too soon", pages, 2 * SET, (const uint64_t[]){SET, PAGE, PAGE}, 3, 3, 1);
    pages[2 * SET + LEAF_1 + 24] ^= 1;
    answers("another stepping", pages, 3 * SET, lengths, 3, 19, 0);
    pages[2 * SET] = 65;
    answers("a count above 64", pages, 3 * SET, lengths, 3, 2, 2);

    printf("%u answers, rows and bytes are as they must be, %u are not\n", compared - different, different);
    return different != 0;
}
