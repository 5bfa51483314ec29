/* A refusal inside the answers that may be one, and its message, by a caller in C11, in C99 or in C++.
 *
 *   gcc -std=c11 -O2 -Wall -Wextra -Wpedantic -Werror -Iinclude -o target/refusals tests/c/refusals.c target/staticlib/libsnp_cpuid.a
 *   target/refusals tests/data/messages.txt
 *
 * Sizes and offsets of all structs are held when this is compiled. The file has refusals by their lines, each with the message that the Rust crate
 * displays for it (rust/tests/lines.rs). Each line is read, and its message is asked for with no room, with every room up to its own, and with more;
 * bytes beyond the room or the message must be as they were. The last line has the number of things compared. Exit status 1 where one is not as it
 * must be.
 */
#define SNP_CPUID_RAW
#include "snp_cpuid.h"

#include <stdio.h>
#include <string.h>
#include "same.h"

#if defined(__cplusplus)
#define HOLDS(what, text) static_assert(what, text)
#elif __STDC_VERSION__ >= 201112L
#define HOLDS(what, text) _Static_assert(what, text)
#else
#define HOLDS(what, text) extern char held[(what) ? 1 : -1]
#endif

#define BYTES(name, bytes) HOLDS(sizeof(struct snp_cpuid_##name) == bytes, "the size of " #name)
#define AT(name, field, offset) HOLDS(offsetof(struct snp_cpuid_##name, field) == offset, "the place of " #name "." #field)
#define FIVE_AT(name, first) \
    AT(name, number, first); \
    AT(name, leaf, first + 4); \
    AT(name, has_subleaf, first + 8); \
    AT(name, subleaf, first + 12); \
    AT(name, s, first + 16)

/* the five fields of an answer from `first` on, and where it has one its `refusal` in the same place */
#if !defined(__cplusplus) && __STDC_VERSION__ >= 201112L
#define REFUSAL_AT(name, first) \
    FIVE_AT(name, first); \
    AT(name, refusal, first); \
    HOLDS(sizeof(((struct snp_cpuid_##name *)0)->refusal) == 20, "the refusal of " #name)
#else
#define REFUSAL_AT(name, first) FIVE_AT(name, first)
#endif

BYTES(refusal, 20);
FIVE_AT(refusal, 0);

#include "layout.h"

enum { ROOM = 256, FILL = 0x5A };

/* The message under every room from 0 to a little more than it takes. */
static void says(struct snp_cpuid_refusal refusal, const char *message) {
    size_t length = strlen(message);
    same(length < SNP_CPUID_MOST_MESSAGE_BYTES, "a longer message than the header says");
    for (size_t room = 0; room < length + 4; room++) {
        char out[ROOM], wanted[ROOM];
        memset(out, FILL, ROOM);
        memset(wanted, FILL, ROOM);
        if (room > 0) {
            size_t kept = length < room ? length : room - 1;
            memcpy(wanted, message, kept);
            wanted[kept] = 0;
        }
        same(snp_cpuid_message(refusal, room ? out : NULL, room) == length && memcmp(out, wanted, ROOM) == 0, message);
    }
}

/* A refusal's line and its message; gives its number. */
static uint32_t line_says(const char *line, size_t length, const char *message) {
    struct snp_cpuid_line_read read = snp_cpuid_read_line((const uint8_t *)line, length);
    struct snp_cpuid_refusal refusal = {read.number, read.leaf, read.has_subleaf, read.subleaf, read.s};
    same(read.is_line == 1, line);
#if !defined(__cplusplus) && __STDC_VERSION__ >= 201112L
    same(memcmp(&read.refusal, &refusal, sizeof refusal) == 0, line);
#endif
    says(refusal, message);
    return refusal.number;
}

int main(int count, char **words) {
    FILE *in = count == 2 ? fopen(words[1], "r") : NULL;
    if (!in) {
        fprintf(stderr, "usage: refusals MESSAGES\n");
        return 1;
    }
    char text[ROOM];
    uint32_t most = 0;
    while (fgets(text, sizeof text, in)) {
        char *colon = strstr(text, ": "), *end = strchr(text, '\n');
        same(colon && end, "a line of the file");
        if (!colon || !end) continue;
        *colon = '\n';
        *end = 0;
        uint32_t number = line_says(text, (size_t)(colon - text) + 1, colon + 2);
        most = number > most ? number : most;
    }
    fclose(in);

    struct snp_cpuid_refusal none = {0, 0, 0, 0, 0}, next = {most + 1, 0, 0, 0, 0}, last = {UINT32_MAX, 0, 0, 0, 0};
    says(none, "accepted");
    says(next, "no such number");
    says(last, "no such number");
    /* what no answer has: a subleaf without has_subleaf, and an s above 255 */
    struct snp_cpuid_refusal unread = {3, 0xD, 0, 2, 0}, large = {6, 0, 0, 0, UINT32_MAX}, many = {7, 0, 0, 0, UINT32_MAX};
    says(unread, "no entry for leaf Dh, which every guest needs");
    says(large, "the topology leaves disagree: the processor count does not go with the hyperthreading flag, 1.EDX bit 28 "
                "(APIC core id size 4294967295)");
    says(many, "the topology leaves disagree: the processor counts of 1.EBX and 80000008h.ECX disagree (APIC core id size 4294967295)");
    printf("%u messages and lines are as they must be, %u are not\n", compared - different, different);
    return different != 0;
}
