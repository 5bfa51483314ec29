/* Every topology up to size seven, by a caller in C: document 02, P14.
 *
 *   gcc -std=c11 -O2 -Wall -Wextra -Werror -Iinclude -o target/topologies tests/c/topologies.c target/staticlib/libsnp_cpuid.a
 *   target/topologies tests/data/epyc-milan.pages [--all]
 *
 * Document 01's rule is written here once more. All 2^28 inputs with s from 0 to 7 are held against the library's list by it. Then pages with the
 * inputs, the file's with five fields changed, go through building: every s, nc, lps and mt, each with t = 0 to 2 and one further t, or with --all
 * every t, which takes minutes. Each must be accepted, with the B.0 and B.1 of the rule, or refused by its number and s. The last line has the number
 * of inputs that went through building. Exit status 1 where something is not as it must be.
 */
#define SNP_CPUID_RAW
#include "snp_cpuid.h"

#include <stdio.h>
#include <stdlib.h>
#include <string.h>

enum { PAGE = 4096, LIST = SNP_CPUID_TOPOLOGIES_BYTES, FILL = 0xA5, EBX = 28, ECX = 32, EDX = 36 };

static uint8_t pages[2 * PAGE];
static uint8_t list[LIST];

static void must(bool is, const char *what) {
    if (!is) {
        printf("not as it must be: %s\n", what);
        exit(1);
    }
}

/* Refusal 6, 7 or 8, or 0 and v. */
static unsigned refused(unsigned s, unsigned nc, unsigned lps, unsigned mt, unsigned t, unsigned *v) {
    *v = s > 0 ? 1u << s : mt ? lps : 1;
    if (s == 0 && !mt && (nc != 0 || lps > 1))
        return 6;
    if (s == 0 && mt && lps != nc + 1)
        return 7;
    if (s > 0 && (nc + 1 > *v || lps != *v))
        return 7;
    if (s > 0 && !mt)
        return 6;
    return t > 1 || t >= *v ? 8 : 0;
}

/* ---- the list */

static void buffers(void) {
    uint8_t out[LIST + 16], untouched[LIST + 16];
    memset(untouched, FILL, sizeof untouched);
    for (size_t room = 0; room <= sizeof out; room += room < LIST - 8 ? 509 : 1) {
        memset(out, FILL, sizeof out);
        struct snp_cpuid_written written = snp_cpuid_write_topologies(out, room);
        must(written.leaf == 0 && written.has_subleaf == 0 && written.subleaf == 0 && written.s == 0, "nothing is named");
        if (room < LIST) {
            must(written.number == 9 && written.length == 0, "a short buffer is refused by 9");
            must(memcmp(out, untouched, sizeof out) == 0, "a short buffer stays as it was");
        } else {
            must(written.number == 0 && written.length == LIST, "there is room");
            must(memcmp(out + LIST, untouched, sizeof out - LIST) == 0, "the bytes beyond stay");
            memcpy(list, out, LIST);
        }
    }
}

/* All 2^28 in their order: the accepted ones, and no other, are the list's, one after another. */
static void every_input(void) {
    size_t at = 0, zero = 0;
    for (unsigned s = 0; s < 8; s++)
        for (unsigned nc = 0; nc < 256; nc++)
            for (unsigned lps = 0; lps < 256; lps++)
                for (unsigned mt = 0; mt < 2; mt++)
                    for (unsigned t = 0; t < 256; t++) {
                        unsigned v;
                        if (refused(s, nc, lps, mt, t, &v))
                            continue;
                        uint8_t wanted[5] = {s, nc, lps, mt, t};
                        must(at + 5 <= LIST && memcmp(list + at, wanted, 5) == 0, "the next of the list");
                        at += 5;
                        zero += s == 0;
                    }
    must(at == LIST && zero == 511, "511 with s = 0, 508 above, and nothing after them");
}

/* ---- building */

/* The offset of a register in the entry of a leaf on page 0. */
static size_t place(uint32_t leaf, size_t reg) {
    for (size_t at = 16; at < PAGE - 48; at += 48)
        if (memcmp(pages + at, &leaf, 4) == 0) /* little-endian, as this machine is */
            return at + reg;
    must(false, "the leaf is there");
    return 0;
}

static void put(size_t at, uint32_t field, uint32_t value) {
    uint32_t old;
    memcpy(&old, pages + at, 4);
    old = (old & ~field) | value;
    memcpy(pages + at, &old, 4);
}

static struct snp_cpuid_found level(uint32_t subleaf) {
    return snp_cpuid_lookup(pages, sizeof pages, false, 1, 0xB, true, subleaf, true);
}

static void levels(unsigned v, unsigned t) {
    unsigned shift = 0;
    while (1u << shift < v)
        shift++;
    struct snp_cpuid_found threads = level(0), cores = level(1);
    must(threads.found && threads.eax == t && threads.ebx == t + 1 && threads.ecx == 0x100 && threads.edx == 0, "B.0");
    must(cores.found && cores.eax == shift && cores.ebx == v && cores.ecx == 0x201 && cores.edx == 0, "B.1");
}

static void built(unsigned s, unsigned nc, unsigned lps, unsigned mt, unsigned t) {
    unsigned v, number = refused(s, nc, lps, mt, t, &v);
    struct snp_cpuid_built answer = snp_cpuid_build(pages, sizeof pages, false, 1);
    must(answer.number == number, "accepted, or refused by 6, 7 or 8, as the rule says");
    must(answer.s == (number == 6 || number == 7 ? s : 0), "the refusal names s");
    if (number == 0)
        levels(v, t);
}

static unsigned long through_building(bool all) {
    size_t sizes = place(0x80000008, ECX), count = place(1, EBX), bit = place(1, EDX), threads = place(0x8000001E, EBX);
    unsigned long many = 0;
    for (unsigned s = 0; s < 8; s++)
        for (unsigned nc = 0; nc < 256; nc++) {
            put(sizes, 0xF0FF, s << 12 | nc);
            for (unsigned lps = 0; lps < 256; lps++) {
                put(count, 0xFF << 16, lps << 16);
                for (unsigned mt = 0; mt < 2; mt++) {
                    put(bit, 1u << 28, mt << 28);
                    unsigned further = 3 + (s * 31 + nc * 17 + lps * 7 + mt) % 253;
                    for (unsigned t = 0; t < 256; t = all || t < 2 ? t + 1 : t < further ? further : 256) {
                        put(threads, 0xFF << 8, t << 8);
                        built(s, nc, lps, mt, t);
                        many++;
                    }
                }
            }
        }
    return many;
}

int main(int count, char **words) {
    bool all = count == 3 && strcmp(words[2], "--all") == 0;
    FILE *in = count == 2 || all ? fopen(words[1], "rb") : NULL;
    if (!in || fread(pages, 1, sizeof pages, in) != sizeof pages) {
        fprintf(stderr, "usage: topologies PAGES [--all], two pages that are accepted\n");
        return 1;
    }
    fclose(in);
    buffers();
    every_input();
    printf("%lu inputs through building, 268435456 held against the list\n", through_building(all));
    return 0;
}
