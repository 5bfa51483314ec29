/* Tables that a caller keeps, asked from C.
 *
 *   gcc -std=gnu11 -O2 -Wall -Wextra -Werror -Iinclude -o target/table tests/c/table.c target/staticlib/libsnp_cpuid.a
 *   target/table rust/tests/table.txt tests/data/epyc-milan.pages
 *
 * First the list that tests/lists/make_table.py made with the model's answers, every function on memory of any content. Then the pages of the file
 * with each result bit flipped in turn: a built table must give what the functions that start from pages give. All arrays and buffers end at a page
 * that cannot be touched, and what a function only reads must be as it was. The last line has the number of answers compared. Exit status 1 where one
 * is not as it must be.
 */
#define _GNU_SOURCE
#define SNP_CPUID_RAW
#include "snp_cpuid.h"

#include <stdio.h>
#include <stdlib.h>
#include <string.h>
#include <sys/mman.h>

enum { PAGE = 4096, TABLE = sizeof(struct snp_cpuid_kept_table), MOST_PAGES = 34 * PAGE, FILL = 0xA5, MOST_WORDS = 24 };

static unsigned long compared, different;
static const char *asked;

static void same(bool is) {
    compared++;
    if (is) return;
    if (different++ < 20) printf("not as it must be: %.200s\n", asked);
}

/* ---- memory with an untouchable page behind it */

struct buffer {
    uint8_t *end, *at;
    size_t room, length;
};

static struct buffer guarded(size_t room) {
    size_t whole = (room + PAGE - 1) / PAGE * PAGE;
    uint8_t *all = mmap(NULL, whole + PAGE, PROT_READ | PROT_WRITE, MAP_PRIVATE | MAP_ANONYMOUS, -1, 0);
    if (all == MAP_FAILED || mprotect(all + whole, PAGE, PROT_NONE)) {
        perror("mmap");
        exit(2);
    }
    return (struct buffer){all + whole, all + whole, room, 0};
}

/* Makes the buffer as long as given, up against its end; bytes stay from the front. */
static void resize(struct buffer *buffer, size_t length) {
    if (length > buffer->room) {
        printf("no room for %zu bytes\n", length);
        exit(2);
    }
    uint8_t *at = buffer->end - length;
    memmove(at, buffer->at, length < buffer->length ? length : buffer->length);
    if (length > buffer->length) memset(at + buffer->length, 0, length - buffer->length);
    buffer->at = at;
    buffer->length = length;
}

static void put(struct buffer *buffer, const void *bytes, size_t length) {
    resize(buffer, length);
    memcpy(buffer->at, bytes, length);
}

/* The two arrays that calls work on, and a second pair; the bytes of a struct are moved in and out. */
static struct buffer registers[2], origins[2], pages, image, out, lengths;
enum { REGISTERS = sizeof((struct snp_cpuid_kept_table *)0)->registers, ORIGINS = sizeof((struct snp_cpuid_kept_table *)0)->origins };
#define REG(i) ((uint32_t *)registers[i].at)
#define ORG(i) ((uint64_t *)origins[i].at)
#define BOTH(i) REG(i), ORG(i)

static void load(int which, const uint8_t *table) {
    put(&registers[which], table, REGISTERS);
    put(&origins[which], table + REGISTERS, ORIGINS);
}

static bool holds(int which, const uint8_t *table) {
    return !memcmp(registers[which].at, table, REGISTERS) && !memcmp(origins[which].at, table + REGISTERS, ORIGINS);
}

/* ---- the list */

static uint64_t words[MOST_WORDS], wanted[MOST_WORDS];
static char *last_word[2];

/* Applies the edits of tests/lists/replayed.py to a buffer. */
static void edit(struct buffer *buffer, const char *word) {
    if (*word == '-') return;
    while (*word) {
        char *next;
        if (*word == '#') {
            resize(buffer, strtoul(word + 1, &next, 10));
        } else {
            size_t at = strtoul(word + 1, &next, 16);
            for (next++; *next && *next != ','; next += 2) {
                char digits[3] = {next[0], next[1], 0};
                buffer->at[at++] = strtoul(digits, NULL, 16);
            }
        }
        word = *next ? next + 1 : next;
    }
}

/* The numbers of one half of a line; the last word stays as it is, too. */
static void read_words(char *text, uint64_t *numbers, char **last) {
    memset(numbers, 0, MOST_WORDS * sizeof *numbers);
    size_t count = 0;
    *last = text;
    for (char *word = strtok(text, " "); word && count < MOST_WORDS; word = strtok(NULL, " ")) {
        *last = word;
        numbers[count++] = strtoull(word, NULL, 16);
    }
}

static struct buffer table, made;

/* The memory after a call is what the edits make of `from`, or zeros. */
static void same_memory(const uint8_t *from, const char *word) {
    static const uint8_t zeros[TABLE];
    put(&made, *word == 'z' ? zeros : from, TABLE);
    if (*word != 'z') edit(&made, word);
    same(holds(0, made.at));
}

#define SAME(i, value) same(wanted[i] == (uint64_t)(value))

static void same_refusal(uint32_t number, uint32_t leaf, uint32_t has_subleaf, uint32_t subleaf, uint32_t s) {
    SAME(0, number), SAME(1, leaf), SAME(2, has_subleaf), SAME(3, subleaf), SAME(4, s);
}

static void same_row(int at, struct snp_cpuid_found f) {
    SAME(at, f.found), SAME(at + 1, f.eax), SAME(at + 2, f.ebx), SAME(at + 3, f.ecx), SAME(at + 4, f.edx);
    SAME(at + 5, f.origin), SAME(at + 6, f.page), SAME(at + 7, f.entry);
}

/* Memory that is to be filled holds other bytes before; then it is the table that the next lines ask. */
static void before_filling(void) {
    memset(registers[0].at, FILL, REGISTERS);
    memset(origins[0].at, FILL, ORIGINS);
}

static void after_filling(void) {
    static const uint8_t zeros[TABLE];
    same_memory(zeros, last_word[1]);
    put(&table, made.at, TABLE);
}

static void ask_build(void) {
    before_filling();
    struct snp_cpuid_built b = snp_cpuid_table_build(pages.at, pages.length, words[0], words[1], BOTH(0));
    same_refusal(b.number, b.leaf, b.has_subleaf, b.subleaf, b.s);
    SAME(5, b.row_count), SAME(6, b.max_extended_state);
    after_filling();
}

static void ask_pool(void) {
    uint64_t each[MOST_WORDS];
    size_t servers = 0;
    for (char *word = strtok(last_word[0], ","); word; word = strtok(NULL, ",")) each[servers++] = strtoull(word, NULL, 16);
    put(&lengths, each, servers * sizeof *each);
    before_filling();
    struct snp_cpuid_pooled p =
        snp_cpuid_table_pool(pages.at, pages.length, (uint64_t *)lengths.at, servers, words[0], words[1], BOTH(0));
    same_refusal(p.number, p.leaf, p.has_subleaf, p.subleaf, p.s);
    SAME(5, p.server), SAME(6, p.row_count), SAME(7, p.max_extended_state);
    after_filling();
}

static void ask_read(void) {
    before_filling();
    struct snp_cpuid_read r = snp_cpuid_table_read_image(image.at, image.length, BOTH(0));
    SAME(0, r.is_image), SAME(1, r.row_count), SAME(2, r.max_extended_state);
    after_filling();
}

static void ask_find(void) {
    same_row(0, snp_cpuid_table_find(BOTH(0), words[0], words[1], words[2], words[3]));
}

static void ask_guest_find(void) {
    struct snp_cpuid_guest_found g =
        snp_cpuid_table_guest_find(BOTH(0), words[0], words[1], words[2], words[3], words[4], words[5], words[6], words[7]);
    SAME(0, g.number);
    same_row(1, (struct snp_cpuid_found){g.found, g.eax, g.ebx, g.ecx, g.edx, g.origin, g.page, g.entry});
}

static void ask_guest_find_kept(void) {
    same_row(0, snp_cpuid_table_guest_find_kept(BOTH(0), words[0], words[1], words[2], words[3], words[4], words[5], words[6], words[7], words[8]));
}

static void ask_state(void) {
    struct snp_cpuid_state s = snp_cpuid_table_state(BOTH(0), words[0], words[1]);
    SAME(0, s.number), SAME(1, s.size);
}

static void ask_guest(void) {
    struct snp_cpuid_built b = snp_cpuid_table_guest(BOTH(0), words[0], words[1], words[2], words[3]);
    same_refusal(b.number, b.leaf, b.has_subleaf, b.subleaf, b.s);
    SAME(5, b.row_count), SAME(6, b.max_extended_state);
    same_memory(table.at, last_word[1]);
    load(0, table.at);
}

/* Writes into as much room as asked for; the bytes of the whole of it are compared. */
static void ask_write(struct snp_cpuid_written write(const uint32_t *, const uint64_t *, uint8_t *, size_t)) {
    resize(&out, words[0]);
    memset(out.at, FILL, out.length);
    struct snp_cpuid_written w = write(BOTH(0), out.at, out.length);
    same_refusal(w.number, w.leaf, w.has_subleaf, w.subleaf, w.s);
    SAME(5, w.length);
    resize(&made, words[0]);
    memset(made.at, FILL, made.length);
    edit(&made, last_word[1]);
    same(!memcmp(out.at, made.at, out.length));
}

static void ask_image(void) {
    ask_write(snp_cpuid_table_write_image);
}

static void ask_kvm(void) {
    ask_write(snp_cpuid_table_write_kvm);
}

static void ask_carry(void) {
    SAME(0, snp_cpuid_table_carry(BOTH(0), words[0], words[1], words[2], words[3]));
    same_memory(table.at, last_word[1]);
    load(0, table.at);
}

static void ask_compare(void) {
    put(&made, table.at, TABLE);
    edit(&made, last_word[0]);
    load(1, made.at);
    struct snp_cpuid_tables_compared c = snp_cpuid_table_compare(BOTH(0), BOTH(1));
    SAME(0, c.answer), SAME(1, c.leaf), SAME(2, c.has_subleaf), SAME(3, c.subleaf), SAME(4, c.register_index);
    same(holds(1, made.at));
}

static void ask_counts(void) {
    struct snp_cpuid_counts c = snp_cpuid_table_counts(BOTH(0));
    SAME(0, c.row_count), SAME(1, c.max_extended_state);
}

static void ask_fingerprint(void) {
    resize(&out, SNP_CPUID_FINGERPRINT_BYTES);
    resize(&made, SNP_CPUID_FINGERPRINT_BYTES);
    memset(out.at, FILL, out.length), memset(made.at, FILL, made.length);
    struct snp_cpuid_counts c = snp_cpuid_table_fingerprint(BOTH(0), out.at);
    SAME(0, c.row_count), SAME(1, c.max_extended_state);
    edit(&made, last_word[1]);
    same(!memcmp(out.at, made.at, out.length));
}

static const struct {
    const char *name;
    void (*ask)(void);
} ASKED[] = {{"build", ask_build},   {"pool", ask_pool},   {"read", ask_read},   {"find", ask_find},   {"guest_find", ask_guest_find},
             {"state", ask_state},   {"guest", ask_guest}, {"image", ask_image}, {"kvm", ask_kvm},     {"guest_find_kept", ask_guest_find_kept},
             {"carry", ask_carry},   {"compare", ask_compare}, {"counts", ask_counts}, {"fingerprint", ask_fingerprint}};

/* One line: an edit of what is asked, or a question. */
static void replay(char *line) {
    static char kept[256];
    snprintf(kept, sizeof kept, "%s", line);
    asked = kept;
    char *rest = strchr(line, ' '), *bar = strstr(line, "| ");
    *rest++ = 0;
    if (!bar) {
        edit(*line == 'p' ? &pages : *line == 'i' ? &image : &table, rest);
        if (*line == 't') load(0, table.at);
        return;
    }
    *bar = 0;
    read_words(bar + 2, wanted, &last_word[1]);
    read_words(bar > rest ? rest : bar, words, &last_word[0]);
    for (size_t k = 0; k < sizeof ASKED / sizeof *ASKED; k++) {
        if (strcmp(line, ASKED[k].name)) continue;
        ASKED[k].ask();
        same(holds(0, table.at));
        return;
    }
    printf("no function for the line %s\n", line);
    exit(2);
}

static void replay_file(const char *name) {
    FILE *file = fopen(name, "r");
    char *line = NULL;
    size_t room = 0;
    ssize_t length;
    if (!file) {
        perror(name);
        exit(2);
    }
    while ((length = getline(&line, &room, file)) > 0) {
        line[length - 1] = 0;
        replay(line);
    }
    free(line);
    fclose(file);
}

/* ---- a built table beside the functions that start from pages */

static const struct {
    uint32_t x2apic;
    uint64_t xcr0, xss;
    bool osxsave;
} PROCESSORS[] = {{5, 7, 0x800, true}, {0x12345678, 3, 0, false}, {9, 1, 0x1800, true}, {0, 0, 0, true}};

static const uint32_t LEAVES[] = {0,          1,          5,          7,          0xB, 0xD, 0x80000000, 0x80000001, 0x80000008,
                                  0x80000019, 0x8000001D, 0x8000001E, 0x8000001F, 2,   0xFFFFFFFF};

static bool same_found(struct snp_cpuid_found a, struct snp_cpuid_found b) {
    return a.found == b.found && a.eax == b.eax && a.ebx == b.ebx && a.ecx == b.ecx && a.edx == b.edx && a.origin == b.origin && a.page == b.page &&
           a.entry == b.entry;
}

static bool same_built(struct snp_cpuid_built a, struct snp_cpuid_built b) {
    return a.number == b.number && a.leaf == b.leaf && a.has_subleaf == b.has_subleaf && a.subleaf == b.subleaf && a.s == b.s &&
           a.row_count == b.row_count && a.max_extended_state == b.max_extended_state;
}

static struct snp_cpuid_built built_of(struct snp_cpuid_pooled p) {
    return (struct snp_cpuid_built){.refusal = p.refusal, .row_count = p.row_count, .max_extended_state = p.max_extended_state};
}

#define WHOLE pages.at, pages.length, avic, edition

static void rows_agree(unsigned turn, bool avic, uint32_t edition) {
    for (size_t k = 0; k < sizeof LEAVES / sizeof *LEAVES; k++) {
        bool has = (turn + k) % 4, enforce = (turn + k) % 3 == 0;
        uint32_t leaf = LEAVES[k], subleaf = leaf == 0xD ? turn % 14 : (turn + k) % 5 / 2;
        same(same_found(snp_cpuid_table_find(BOTH(0), leaf, has, subleaf, enforce), snp_cpuid_lookup(WHOLE, leaf, has, subleaf, enforce)));
    }
}

/* One row of a guest, three ways, and its whole table. */
static void guests_agree(unsigned turn, bool avic, uint32_t edition) {
    const uint32_t seen[] = {1, 0xB, 0xD, 0x80000001};
    uint8_t from_pages[SNP_CPUID_MOST_IMAGE_BYTES], from_table[SNP_CPUID_MOST_IMAGE_BYTES];
    uint32_t apic = PROCESSORS[turn % 4].x2apic, leaf = seen[turn / 4 % 4], subleaf = turn / 16 % 3;
    uint64_t xcr0 = PROCESSORS[turn % 4].xcr0, xss = PROCESSORS[turn % 4].xss;
    bool osxsave = PROCESSORS[turn % 4].osxsave;
    struct snp_cpuid_built built = snp_cpuid_build(WHOLE), given = snp_cpuid_guest_build(WHOLE, apic, xcr0, xss, osxsave);
    if (built.number) return;
    struct snp_cpuid_found found = snp_cpuid_guest_lookup(WHOLE, apic, xcr0, xss, osxsave, leaf, true, subleaf, false);
    struct snp_cpuid_guest_found g = snp_cpuid_table_guest_find(BOTH(0), apic, xcr0, xss, osxsave, leaf, true, subleaf, false);
    struct snp_cpuid_state state = snp_cpuid_table_state(BOTH(0), xcr0, xss);
    same(given.number == g.number && given.number == state.number);
    same(same_found(found, (struct snp_cpuid_found){g.found, g.eax, g.ebx, g.ecx, g.edx, g.origin, g.page, g.entry}));
    if (state.number == 0)
        same(same_found(found, snp_cpuid_table_guest_find_kept(BOTH(0), apic, xcr0, xss, osxsave, state.size, leaf, true, subleaf, false)));
    struct snp_cpuid_written w = snp_cpuid_write_guest_image(WHOLE, apic, xcr0, xss, osxsave, from_pages, sizeof from_pages);
    memcpy(REG(1), REG(0), REGISTERS);
    memcpy(ORG(1), ORG(0), ORIGINS);
    struct snp_cpuid_built of_table = snp_cpuid_table_guest(BOTH(1), apic, xcr0, xss, osxsave);
    same(same_built(of_table, given) && given.number == w.number);
    same(snp_cpuid_table_write_image(BOTH(1), from_table, sizeof from_table).length == w.length && !memcmp(from_pages, from_table, w.length));
}

/* Image and list, the image read back and the table carried. */
static void bytes_agree(bool avic, uint32_t edition) {
    uint8_t from_pages[SNP_CPUID_MOST_KVM_BYTES], from_table[SNP_CPUID_MOST_KVM_BYTES];
    if (snp_cpuid_build(WHOLE).number) return;
    struct snp_cpuid_written w = snp_cpuid_write_kvm(WHOLE, from_pages, sizeof from_pages);
    same(snp_cpuid_table_write_kvm(BOTH(0), from_table, sizeof from_table).length == w.length && !memcmp(from_pages, from_table, w.length));
    w = snp_cpuid_write_image(WHOLE, from_pages, sizeof from_pages);
    same(snp_cpuid_table_write_image(BOTH(0), from_table, sizeof from_table).length == w.length && !memcmp(from_pages, from_table, w.length));
    same(snp_cpuid_table_read_image(from_pages, w.length, BOTH(1)).is_image == 1 && !memcmp(REG(0), REG(1), REGISTERS));
    same(snp_cpuid_table_compare(BOTH(0), BOTH(1)).answer == 0);
    struct snp_cpuid_carried carried = snp_cpuid_carry(from_pages, w.length, edition, 2, 3, 0);
    same(snp_cpuid_table_carry(BOTH(0), edition, 2, 3, 0) == carried.number);
    same(snp_cpuid_table_write_image(BOTH(0), from_table, sizeof from_table).length == w.length && !memcmp(from_pages, from_table, w.length));
}

/* The fingerprint, also where building refuses. */
static void fingerprints_agree(bool avic, uint32_t edition) {
    uint8_t from_pages[SNP_CPUID_FINGERPRINT_BYTES], from_table[SNP_CPUID_FINGERPRINT_BYTES];
    same(same_built(snp_cpuid_fingerprint(WHOLE, from_pages), snp_cpuid_build(WHOLE)));
    snp_cpuid_table_fingerprint(BOTH(0), from_table);
    same(!memcmp(from_pages, from_table, sizeof from_pages));
}

/* A pool of the shipped set and the one with a bit flipped, in turn the first. */
static void pools_agree(unsigned turn, const uint8_t *shipped, bool avic, uint32_t edition) {
    static uint8_t sets[4 * PAGE];
    uint8_t from_pages[SNP_CPUID_MOST_IMAGE_BYTES], from_table[SNP_CPUID_MOST_IMAGE_BYTES];
    const uint64_t each[2] = {2 * PAGE, 2 * PAGE};
    memcpy(sets + turn % 2 * 2 * PAGE, shipped, 2 * PAGE);
    memcpy(sets + (1 - turn % 2) * 2 * PAGE, pages.at, 2 * PAGE);
    struct snp_cpuid_pooled p = snp_cpuid_pool(sets, sizeof sets, each, 2, avic, edition);
    struct snp_cpuid_pooled q = snp_cpuid_table_pool(sets, sizeof sets, each, 2, avic, edition, BOTH(1));
    same(same_built(built_of(p), built_of(q)) && p.server == q.server);
    if (p.number) return;
    struct snp_cpuid_written w = snp_cpuid_write_pool_image(sets, sizeof sets, each, 2, avic, edition, from_pages, sizeof from_pages);
    same(snp_cpuid_table_write_image(BOTH(1), from_table, sizeof from_table).length == w.length && !memcmp(from_pages, from_table, w.length));
    same(same_found(snp_cpuid_table_find(BOTH(1), 0xD, true, turn % 13, true),
                    snp_cpuid_pool_lookup(sets, sizeof sets, each, 2, avic, edition, 0xD, true, turn % 13, true)));
}

static void flip_every_bit(const uint8_t *shipped) {
    static char what[64];
    unsigned turn = 0;
    asked = what;
    for (size_t page = 0; page < 2; page++)
        for (size_t bit = 0; bit < 128 * (size_t)shipped[PAGE * page]; bit++, turn++) {
            bool avic = turn % 2;
            uint32_t edition = 1 + turn / 2 % 2;
            put(&pages, shipped, 2 * PAGE);
            pages.at[PAGE * page + 16 + 48 * (bit / 128) + 24 + bit % 128 / 8] ^= 1 << bit % 8;
            snprintf(what, sizeof what, "bit %zu of page %zu flipped", bit, page);
            struct snp_cpuid_built b = snp_cpuid_table_build(WHOLE, BOTH(0));
            same(same_built(b, snp_cpuid_build(WHOLE)));
            struct snp_cpuid_counts counts = snp_cpuid_table_counts(BOTH(0));
            same(counts.row_count == b.row_count && counts.max_extended_state == b.max_extended_state);
            rows_agree(turn, avic, edition);
            fingerprints_agree(avic, edition);
            guests_agree(turn, avic, edition);
            pools_agree(turn, shipped, avic, edition);
            bytes_agree(avic, edition);
        }
}

int main(int count, char **names) {
    uint8_t shipped[2 * PAGE];
    FILE *file = count == 3 ? fopen(names[2], "rb") : NULL;
    if (!file || fread(shipped, 1, sizeof shipped, file) != sizeof shipped) {
        fprintf(stderr, "usage: table LIST PAGES\n");
        return 2;
    }
    fclose(file);
    for (int which = 0; which < 2; which++) registers[which] = guarded(REGISTERS), origins[which] = guarded(ORIGINS);
    for (int which = 0; which < 2; which++) resize(&registers[which], REGISTERS), resize(&origins[which], ORIGINS);
    pages = guarded(MOST_PAGES), image = guarded(PAGE), out = guarded(2 * PAGE), lengths = guarded(PAGE);
    table = guarded(PAGE), made = guarded(2 * PAGE);
    replay_file(names[1]);
    flip_every_bit(shipped);
    printf("%lu answers and bytes are as they must be, %lu are not\n", compared - different, different);
    return different != 0;
}
