/* Runs every exported function on a stack of the stated size, below which lies a page that cannot be touched.
 *
 *   stack PAGES FUNCTION=BYTES ..
 *
 * BYTES is what stands below the caller's frame and its arguments. Each function is called with page sets that are accepted and refused in every
 * way, at an odd address; its answer must be the one that it gives on a large stack. Prints for each function how much of its stack was touched.
 * A function that touches more ends the program by a signal, and its name is the last line. One without BYTES is left out.
 */
#define _GNU_SOURCE
#define SNP_CPUID_RAW
#include <snp_cpuid.h>
#include <stdio.h>
#include <stdlib.h>
#include <string.h>
#include <sys/mman.h>

enum { PAGE = 4096, LARGE = 1 << 20, ROOM = 2 * PAGE, MOST_WORDS = 16, MOST_CALLS = 64, IN_REGISTERS = 6, PAINT = 0xA5 };

/* Puts the stack pointer to `stack`, loads the six registers of arguments and calls the function; what it returns in RAX and RDX. */
struct pair {
    uint64_t rax, rdx;
};
struct pair call_on(void *stack, void (*function)(void), const uint64_t *words);
__asm__(".text\n"
        "call_on:\n"
        "    push %rbp\n"
        "    mov %rsp, %rbp\n"
        "    mov %rdi, %rsp\n"
        "    mov %rsi, %rax\n"
        "    mov %rdx, %r10\n"
        "    mov (%r10), %rdi\n"
        "    mov 8(%r10), %rsi\n"
        "    mov 16(%r10), %rdx\n"
        "    mov 24(%r10), %rcx\n"
        "    mov 32(%r10), %r8\n"
        "    mov 40(%r10), %r9\n"
        "    call *%rax\n"
        "    mov %rbp, %rsp\n"
        "    pop %rbp\n"
        "    ret\n");

/* What a call reads and writes. `pages` stands at an odd address. */
static uint8_t shipped[2 * PAGE], given[1 + 32 * PAGE], *const pages = given + 1;
static size_t length;
static uint8_t image[SNP_CPUID_MOST_IMAGE_BYTES], list[SNP_CPUID_MOST_KVM_BYTES], line[SNP_CPUID_MOST_LINE_BYTES];
static size_t image_length, list_length, line_length;
static uint64_t lengths[16];
static uint8_t lent[ROOM];
static size_t room;
static struct snp_cpuid_kept_table table;

struct call {
    const char *name;
    void (*function)(void);
    size_t answer; /* the size of what it returns; above 16 bytes it is written where the first argument points */
    uint64_t words[MOST_WORDS];
};

#define AT(pointer) ((uint64_t)(uintptr_t)(pointer))
#define CALL(name, answer, ...) {#name, (void (*)(void))name, sizeof(answer), {__VA_ARGS__}}
#define CHOICES 1, edition
#define BUFFER AT(lent), room
#define POOL AT(pages), length, AT(lengths), 16
#define PROCESSOR 5, 7, 0x800, 1
#define ROW 0xD, 1, 1, 1
#define TABLE AT(table.registers), AT(table.origins)

/* Copies what is carried in place, so that each call finds it anew. */
static uint64_t fresh_image(void) {
    memcpy(lent, image, image_length);
    return AT(lent);
}

/* Builds what the calls over a table read or rewrite: the set's own table, or one without rows. */
static void fresh_table(uint32_t edition) {
    snp_cpuid_table_build(pages, length, true, edition, table.registers, table.origins);
}

/* The calls: one line for each exported function. */
static size_t make_calls(struct call *out, uint32_t edition) {
    fresh_table(edition);
    struct call calls[] = {
        CALL(snp_cpuid_build, struct snp_cpuid_built, AT(pages), length, CHOICES),
        CALL(snp_cpuid_lookup, struct snp_cpuid_found, AT(pages), length, CHOICES, ROW),
        CALL(snp_cpuid_write_image, struct snp_cpuid_written, AT(pages), length, CHOICES, BUFFER),
        CALL(snp_cpuid_write_kvm, struct snp_cpuid_written, AT(pages), length, CHOICES, BUFFER),
        CALL(snp_cpuid_read_kvm, struct snp_cpuid_written, AT(list), list_length, BUFFER),
        CALL(snp_cpuid_guest_build, struct snp_cpuid_built, AT(pages), length, CHOICES, PROCESSOR),
        CALL(snp_cpuid_guest_lookup, struct snp_cpuid_found, AT(pages), length, CHOICES, PROCESSOR, ROW),
        CALL(snp_cpuid_write_guest_image, struct snp_cpuid_written, AT(pages), length, CHOICES, PROCESSOR, BUFFER),
        CALL(snp_cpuid_compare, struct snp_cpuid_compared, AT(pages), length, AT(pages), length, CHOICES),
        CALL(snp_cpuid_first_entry, struct snp_cpuid_first, AT(pages), length, 0x8000001F, 0),
        CALL(snp_cpuid_carry, struct snp_cpuid_carried, fresh_image(), image_length, 1, edition, 7, 0x800),
        CALL(snp_cpuid_pool, struct snp_cpuid_pooled, POOL, CHOICES),
        CALL(snp_cpuid_pool_lookup, struct snp_cpuid_found, POOL, CHOICES, ROW),
        CALL(snp_cpuid_write_pool_image, struct snp_cpuid_written, POOL, CHOICES, BUFFER),
        CALL(snp_cpuid_write_line, struct snp_cpuid_line_written, 3, 0xD, 1, 0xFFFFFFFF, 0, BUFFER),
        CALL(snp_cpuid_read_line, struct snp_cpuid_line_read, AT(line), line_length),
        CALL(snp_cpuid_nearest, struct snp_cpuid_nearest_answer, AT(pages), length, CHOICES),
        CALL(snp_cpuid_write_topologies, struct snp_cpuid_written, BUFFER),
        CALL(snp_cpuid_table_build, struct snp_cpuid_built, AT(pages), length, CHOICES, TABLE),
        CALL(snp_cpuid_table_pool, struct snp_cpuid_pooled, POOL, CHOICES, TABLE),
        CALL(snp_cpuid_table_read_image, struct snp_cpuid_read, AT(image), image_length, TABLE),
        CALL(snp_cpuid_table_find, struct snp_cpuid_found, TABLE, ROW),
        CALL(snp_cpuid_table_guest_find, struct snp_cpuid_guest_found, TABLE, PROCESSOR, ROW),
        CALL(snp_cpuid_table_state, struct snp_cpuid_state, TABLE, 7, 0x800),
        CALL(snp_cpuid_table_guest_find_kept, struct snp_cpuid_found, TABLE, PROCESSOR, 1024, ROW),
        CALL(snp_cpuid_table_guest, struct snp_cpuid_built, TABLE, PROCESSOR),
        CALL(snp_cpuid_table_write_image, struct snp_cpuid_written, TABLE, BUFFER),
        CALL(snp_cpuid_table_write_kvm, struct snp_cpuid_written, TABLE, BUFFER),
        CALL(snp_cpuid_table_compare, struct snp_cpuid_tables_compared, TABLE, TABLE),
        CALL(snp_cpuid_table_counts, struct snp_cpuid_counts, TABLE),
        CALL(snp_cpuid_table_carry, uint32_t, TABLE, 1, edition, 7, 0x800),
        CALL(snp_cpuid_fingerprint, struct snp_cpuid_built, AT(pages), length, CHOICES, AT(lent)),
        CALL(snp_cpuid_table_fingerprint, struct snp_cpuid_counts, TABLE, AT(lent)),
    };
    memcpy(out, calls, sizeof calls);
    return sizeof calls / sizeof *calls;
}

/* The most bytes of an answer. */
struct answer {
    uint8_t bytes[128];
};

/* Calls with the arguments that do not fit registers at `stack` and up, and nothing else of the caller's below. */
static struct answer called(const struct call *call, uint8_t *stack) {
    struct answer answer;
    memset(&answer, 0, sizeof answer);
    uint64_t words[MOST_WORDS + 1];
    size_t hidden = call->answer > sizeof(struct pair);
    words[0] = AT(&answer);
    memcpy(words + hidden, call->words, sizeof call->words);
    memcpy(stack, words + IN_REGISTERS, (MOST_WORDS - IN_REGISTERS) * sizeof *words);
    struct pair pair = call_on(stack, call->function, words);
    if (!hidden) memcpy(&answer, &pair, call->answer);
    return answer;
}

/* A stack with an untouchable page below it; its lowest byte. */
static uint8_t *guarded(size_t bytes) {
    uint8_t *all = mmap(NULL, PAGE + bytes, PROT_READ | PROT_WRITE, MAP_PRIVATE | MAP_ANONYMOUS, -1, 0);
    if (all == MAP_FAILED || mprotect(all, PAGE, PROT_NONE)) {
        perror("mmap");
        exit(2);
    }
    return all + PAGE;
}

static uint8_t *lowest;

/* One call on the stated stack, held against the same on the large one; how many bytes were touched. */
static size_t run(size_t at, uint32_t edition, size_t stated) {
    struct call calls[MOST_CALLS];
    make_calls(calls, edition);
    struct answer expected = called(&calls[at], lowest + LARGE);
    make_calls(calls, edition);
    memset(lowest, PAINT, stated);
    struct answer answer = called(&calls[at], lowest + stated);
    if (memcmp(&expected, &answer, calls[at].answer)) {
        printf("gives another answer on a stack of %zu bytes\n", stated);
        exit(1);
    }
    size_t untouched = 0;
    while (untouched < stated && lowest[untouched] == PAINT) untouched++;
    return stated - untouched;
}

/* The page set of a number: the shipped one with an entry of either page gone, an entry's results turned, another length, a count or a reserved byte
 * that is not lawful, or sixteen times over; false where there are no more. */
static bool make_pages(unsigned number) {
    enum { ENTRIES = 30, GONE = 2 * ENTRIES, TURNED = 2 * GONE, LENGTHS = TURNED + 16, COUNT, RESERVED, SIXTEEN };
    uint8_t *entry = pages + 16 + 48 * (number % ENTRIES) + number / ENTRIES % 2 * PAGE;
    memset(given, 0, sizeof given);
    memcpy(pages, shipped, sizeof shipped);
    length = sizeof shipped;
    if (number < GONE) {
        memset(entry, 0xFF, 8);
    } else if (number < TURNED) {
        for (size_t at = 24; at < 40; at++) entry[at] ^= 0xFF;
    } else if (number < LENGTHS) {
        length = (number - TURNED) * PAGE / 2;
    } else if (number == LENGTHS) {
        pages[1] = 1;
    } else if (number == COUNT) {
        pages[16 + 40] = 1;
    } else if (number == RESERVED) {
        for (size_t set = 0; set < 16; set++) memcpy(pages + set * sizeof shipped, shipped, sizeof shipped);
        length = 16 * sizeof shipped;
    }
    for (size_t set = 0; set < 16; set++) lengths[set] = length / 16;
    /* every third set with less room than anything written takes */
    room = number % 3 == 2 ? 1 : sizeof lent;
    return number < SIXTEEN;
}

/* The size that the arguments state for a function; 0 where there is none. */
static size_t stated_for(const char *name, int count, char **words) {
    size_t named = strlen(name);
    for (int word = 2; word < count; word++)
        if (!strncmp(words[word], name, named) && words[word][named] == '=') return strtoul(words[word] + named + 1, NULL, 10);
    return 0;
}

int main(int count, char **words) {
    FILE *file = count > 2 ? fopen(words[1], "rb") : NULL;
    if (!file || fread(shipped, 1, sizeof shipped, file) != sizeof shipped) {
        fprintf(stderr, "usage: stack PAGES FUNCTION=BYTES ..\n");
        return 2;
    }
    fclose(file);
    image_length = snp_cpuid_write_image(shipped, sizeof shipped, true, 1, image, sizeof image).length;
    list_length = snp_cpuid_write_kvm(shipped, sizeof shipped, true, 1, list, sizeof list).length;
    line_length = snp_cpuid_write_line(17, 0x8000001F, false, 0, 0, line, sizeof line).length;
    lowest = guarded(LARGE + PAGE);

    struct call calls[MOST_CALLS];
    room = sizeof lent;
    size_t functions = make_calls(calls, 1), ran = 0;
    for (size_t at = 0; at < functions; at++) {
        size_t stated = stated_for(calls[at].name, count, words), reached = 0;
        if (stated == 0) continue;
        printf("%s ", calls[at].name);
        fflush(stdout);
        if (stated % 16 || stated > LARGE) {
            printf("has a stated size that is no multiple of 16, or too large\n");
            return 1;
        }
        for (unsigned number = 0; make_pages(number); number++) {
            for (uint32_t edition = 1; edition <= 3; edition++) {
                size_t touched = run(at, edition, stated);
                if (touched > reached) reached = touched;
            }
        }
        printf("touched %zu of %zu\n", reached, stated);
        ran++;
    }
    printf("%zu functions\n", ran);
    return 0;
}
