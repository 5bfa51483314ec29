/* snp_cpuid.h: the proved CPUID table of SEV-SNP guests, from C and C++ on x86-64.
 *
 * Build a table once in your own memory, and answer every CPUID exit of the guest from it:
 *
 *   static struct snp_cpuid_kept_table table;
 *   struct snp_cpuid_built built = snp_cpuid_build_into(&table, (struct snp_cpuid_bytes){pages, length}, (struct snp_cpuid_options){.edition = 1});
 *   if (built.number) ..                                   // refused: snp_cpuid_words(built.number) says why
 *   struct snp_cpuid_guest_found row =                     // at a CPUID exit, with EAX and ECX of the guest
 *       snp_cpuid_guest_find(&table, processor, (struct snp_cpuid_query){.leaf = eax, .subleaf = ecx});
 *
 * The parts of this file: 1 what most callers need; 2 the rest; 3 the raw functions, which parts 1 and 2 call. Arguments of one type stand in a
 * struct, so that none can be given for another unseen: name the fields.
 *
 * Link with libsnp_cpuid.a: `pkg-config --cflags --libs snp_cpuid`. Every function may be called with any arguments that fit its types. Pointers must
 * be good for their lengths, and what a call writes must overlap neither what it reads nor what else it writes: a list for KVM cannot be read into
 * its own buffer, nor an image written over the table. A pointer may be null where its length is 0. Nothing else is asked of a caller.
 *
 * Inside a kernel or a paravisor (docs/EMBEDDING.md has it all): the library needs memcpy and memset and nothing else, keeps no state, allocates
 * nothing, never recurses and always returns. Any number of threads may call at once. Buffers of bytes may stand at any address. A call takes at most
 * SNP_CPUID_MOST_STACK_BYTES of stack, whatever the pages are. It uses XMM registers and in places the red zone; the library for ring 0 uses neither.
 *
 * Define before the first #include of this file:
 *   SNP_CPUID_OWN_TYPES   where uint8_t, uint32_t, uint64_t, size_t and bool are defined already: nothing is included then
 *   SNP_CPUID_RAW         to call raw functions too
 *   SNP_CPUID_SHARED      where the library stands in a shared object: linkers cannot look for SNP_CPUID_INTERFACE there, and it is not asked for */
#ifndef SNP_CPUID_H
#define SNP_CPUID_H

#if !defined(__x86_64__) || defined(__ILP32__)
#error "libsnp_cpuid.a is for x86-64 with pointers of 64 bits"
#endif
#if !defined(__ELF__)
#error "libsnp_cpuid.a has the System V calling convention: compile for an ELF target"
#endif
#ifndef __cplusplus
/* an error where the compiler was told to use another convention, as by -mabi=ms */
typedef char snp_cpuid_calls_by_system_v[__builtin_types_compatible_p(void (*)(int), void (__attribute__((sysv_abi)) *)(int)) ? 1 : -1];
#endif

#ifndef SNP_CPUID_OWN_TYPES
#include <stdbool.h>
#include <stddef.h>
#include <stdint.h>
#endif

/* The version of the library that this header belongs to. */
#define SNP_CPUID_VERSION_MAJOR 0
#define SNP_CPUID_VERSION_MINOR 3
#define SNP_CPUID_VERSION_PATCH 2

/* A symbol of the library that has the declarations of this header. The functions of parts 1 and 2 refer to it, those over a table that is there
 * already excepted, by an instruction that does nothing: so a program does not link with a library of other declarations. Who calls raw functions
 * alone calls snp_cpuid_same_interface() in one place. */
#define SNP_CPUID_INTERFACE snp_cpuid_interface_f2fe8a5e

#ifdef __cplusplus
extern "C" {
#endif

/* ==== 1. What most callers need: build a table, ask whether it allows a state, find a row at an exit, write the image, compare two tables */

/* The number of an answer: 0 where it is accepted, else the refusal. Where several hold, building gives the first of 15, 1, 2, 17, 3, 4, 3 for a
 * subleaf of leaf Dh that the table's own state needs, 5, 7, 6 and 8; the others come where a function says. A leaf, subleaf or s that the number
 * does not name is 0. */
enum snp_cpuid_number {
    SNP_CPUID_ACCEPTED = 0,
    SNP_CPUID_PAGES_LENGTH = 1, /* the pages' length is 0 or no multiple of 4096 */
    SNP_CPUID_PAGE_COUNT = 2, /* a page's count is above 64 */
    SNP_CPUID_MISSING_REQUIRED_RESULT = 3, /* a required result is missing; names leaf and subleaf */
    SNP_CPUID_INVLPGB_UNAVAILABLE = 4, /* INVLPGB is unavailable */
    SNP_CPUID_SAVE_AREA_OVERFLOW = 5, /* a save area's size does not fit 32 bits */
    SNP_CPUID_HYPERTHREADING = 6, /* topology: hyperthreading is inconsistent; names s */
    SNP_CPUID_PROCESSOR_COUNT = 7, /* topology: the processor counts are inconsistent; names s */
    SNP_CPUID_THREADS_PER_UNIT = 8, /* topology: the threads per unit are inconsistent */
    SNP_CPUID_BUFFER_TOO_SHORT = 9, /* the buffer is shorter than what would be written */
    SNP_CPUID_LIST_LENGTH = 10, /* the list's length does not fit its count */
    SNP_CPUID_LIST_ROWS = 11, /* the list has more than 64 rows for one page */
    SNP_CPUID_LIST_FIELDS = 12, /* a flag of the list is not 0 or 1, or a word that must be zero is not */
    SNP_CPUID_STATE_BEYOND_TABLE = 13, /* the table does not allow this XCR0 or XSS */
    SNP_CPUID_COMPACT_SIZE_TOO_LARGE = 14, /* the compacted save area's size does not fit 32 bits */
    SNP_CPUID_UNKNOWN_EDITION = 15, /* the edition of the AVX rule is neither 1 nor 2 */
    SNP_CPUID_EDITION_BACK = 16, /* a table cannot go from edition 2 back to 1 */
    SNP_CPUID_RESERVED_BYTES = 17, /* a reserved byte of an entry is not zero; names leaf */
    SNP_CPUID_POOL_SETS = 18, /* a pool takes 2 to 16 page sets, whose lengths sum to the bytes */
    SNP_CPUID_POOL_DIFFERS = 19, /* the pool's servers differ elsewhere than in features */
    SNP_CPUID_NOTHING_DECIDES = 20 /* no single result bit changes the answer */
};

/* A refusal: its number, 0 where there is none, and what it names. */
struct snp_cpuid_refusal {
    uint32_t number;
    uint32_t leaf;
    uint32_t has_subleaf; /* 1 where a subleaf is named */
    uint32_t subleaf;
    uint32_t s; /* bits 12 to 15 of 80000008h.ECX, the size of the APIC core id */
};

/* Answers whose refusals name something have these five fields too. From C11 on they are also one struct, `refusal`: answer.number and
 * answer.refusal.number are the same word. C++ and older C have the five fields alone, at the same offsets. Where you initialise such an answer, name
 * its fields: by position, compilers of C11 warn of missing braces. */
#define SNP_CPUID_REFUSAL_FIELDS uint32_t number; uint32_t leaf; uint32_t has_subleaf; uint32_t subleaf; uint32_t s
#if defined(__cplusplus) || !defined(__STDC_VERSION__) || __STDC_VERSION__ < 201112L
#define SNP_CPUID_REFUSAL SNP_CPUID_REFUSAL_FIELDS
#else
#define SNP_CPUID_REFUSAL union { struct snp_cpuid_refusal refusal; struct { SNP_CPUID_REFUSAL_FIELDS; }; }
#endif

/* Bytes to read. CPUID pages are those of the SEV-SNP firmware, 4,096 bytes each, end to end. */
struct snp_cpuid_bytes {
    const uint8_t *at;
    size_t length;
};

/* Room to write. What is written stands at its front. Bytes beyond are as they were, and so is all of it where the answer is a refusal. */
struct snp_cpuid_room {
    uint8_t *at;
    size_t length;
};

/* The choices of building. secure_avic adds one bit to the mask of 8000001Fh.EAX. edition is that of the AVX rule: 1 is OpenHCL's; where D.0.EAX
 * lacks bit 2, the YMM state, each later one also clears these bits, and nothing else differs:
 *   2: F16C (1.ECX bit 29), XOP and FMA4 (80000001h.ECX bits 11 and 16)
 * Any other edition is refused by 15, whatever the pages are. */
struct snp_cpuid_options {
    bool secure_avic;
    uint32_t edition;
};

/* One processor of a guest. */
struct snp_cpuid_processor {
    uint32_t x2apic; /* its x2APIC number */
    uint64_t xcr0;
    uint64_t xss;
    bool osxsave; /* whether the guest has switched XSAVE on, CR4 bit 18 */
};

/* The row that is asked for. With leaf and subleaf alone it is what the CPUID instruction asks with them in EAX and ECX: a leaf without subleaves is
 * found under any subleaf, one with subleaves under a subleaf that the table has. OpenHCL's leaf_result_ref can ask for more: without_subleaf gives
 * none, which finds leaves without subleaves alone; enforce_subleaf finds a leaf without subleaves only where none is given. */
struct snp_cpuid_query {
    uint32_t leaf;
    uint32_t subleaf; /* not read where without_subleaf is true */
    bool without_subleaf;
    bool enforce_subleaf;
};

/* A table in the caller's own memory: 2,112 bytes without a pointer inside, so it may be copied with memcpy. Memory of any content is a table, and
 * each function says what it makes of it. A table that nobody writes may be read by any number of threads at once.
 *
 * registers has EAX, EBX, ECX and EDX of each of 88 places, by rising leaf and subleaf: 0, 1, 5, 7.0, B.0, B.1, D.0 to D.63, 80000000h to 80000008h,
 * 8000000Ah, 80000019h, 8000001Ah, 8000001Dh.0 to .3, 8000001Eh and 8000001Fh. origins says of each place where its row came from: 0 there is no row,
 * 1 the builder made it, 3 it is not known, else 4 + 64 * page + entry; 2 is written by no function and read as page 0 entry 0. A place has a row
 * exactly where its origin is not 0.
 *
 * What builds, pools or reads a table writes both arrays whole, with zeros at places without a row. Where a caller's own memory has other numbers at
 * such a place of leaf Dh, the combined mask, 13 and 14 and the sizes of save areas are those of the registers as they stand, whether or not there is
 * a row; snp_cpuid_carry_table alone reads them as zeros.
 *
 * A refusal of building, pooling or of a guest's view, and bytes that are no image, leave a table without rows: every word is 0. The functions over a
 * table do not know of that refusal, so keep its number. Of a table without rows
 *   snp_cpuid_find and snp_cpuid_guest_find_kept find nothing
 *   snp_cpuid_guest_find, snp_cpuid_state_of and snp_cpuid_become_guest give 13, whatever the state is; snp_cpuid_carry_table after 15 and 16
 *   snp_cpuid_write_table_image gives number 0 and length 0, as its image has no bytes, and no bytes are read as its image
 *   snp_cpuid_write_table_kvm writes 8 zero bytes, a list of no rows
 *   snp_cpuid_counts_of gives 0 and 0, and snp_cpuid_fingerprint_of the fingerprint of no bytes
 *   snp_cpuid_compare_tables gives 0 with itself; against a table that was built 3, leaf 0, and from one 1, leaf 0. */
struct snp_cpuid_kept_table {
    uint32_t registers[352];
    uint64_t origins[88];
};

/* What building gives. A refused table has row_count 0 and max_extended_state 0. */
struct snp_cpuid_built {
    SNP_CPUID_REFUSAL;
    uint64_t row_count;          /* 26 to 32 of a table that was built from pages */
    uint64_t max_extended_state; /* the combined mask: D.0.EAX, its XFEM, or with D.1.ECX, its XSS, where D.1.EAX has bits 1 and 3 */
};

/* Whether a table allows a state: number 13 or 14 and size 0, or number 0 and the size of the compacted save area, which the guest reads in D.1.EBX.
 * Only snp_cpuid_state_of makes one. */
struct snp_cpuid_state {
    uint32_t number;
    uint32_t size;
};

/* Where a row came from. */
enum snp_cpuid_origin {
    SNP_CPUID_NO_ROW = 0,        /* nothing was found */
    SNP_CPUID_MADE_HERE = 1,     /* the builder made it: leaves 0 and 80000000h, and B.0 and B.1, whether or not the pages have entries for them */
    SNP_CPUID_AN_ENTRY = 2,      /* an entry's, which page and entry tell */
    SNP_CPUID_UNKNOWN_ORIGIN = 3 /* the table was read from an image, which has no origins */
};

/* What a lookup gives: found is 1, the four registers and where the row came from, or all zeros. */
struct snp_cpuid_found {
    uint32_t found;
    uint32_t eax;
    uint32_t ebx;
    uint32_t ecx;
    uint32_t edx;
    uint32_t origin; /* an enum snp_cpuid_origin */
    uint64_t page;   /* pages are counted from 0; 0 where the origin is no entry */
    uint32_t entry;  /* the entry's position on its page, from 0 */
};

/* What a processor's guest reads at a CPUID exit: number 13 or 14 and zeros, or number 0 and what a lookup gives. */
struct snp_cpuid_guest_found {
    uint32_t number;
    uint32_t found;
    uint32_t eax;
    uint32_t ebx;
    uint32_t ecx;
    uint32_t edx;
    uint32_t origin;
    uint64_t page;
    uint32_t entry;
};

/* What a write gives: number 0 and how many bytes were written, or a refusal and length 0. */
struct snp_cpuid_written {
    SNP_CPUID_REFUSAL;
    uint64_t length;
};

/* A register of a row, as answers name it. */
enum snp_cpuid_register {
    SNP_CPUID_EAX = 0,
    SNP_CPUID_EBX = 1,
    SNP_CPUID_ECX = 2,
    SNP_CPUID_EDX = 3
};

/* A guest that runs on one table and would run on another. */
struct snp_cpuid_move {
    const struct snp_cpuid_kept_table *from;
    const struct snp_cpuid_kept_table *to;
};

/* Whether the guest may move. Of NO_ROW, DIFFERS and BEYOND it is the first by rising leaf, subleaf and register. */
enum snp_cpuid_tables_answer {
    SNP_CPUID_TABLE_RISES = 0,     /* yes */
    SNP_CPUID_TABLE_NO_ROW = 1,    /* `to` has no row for the leaf, and subleaf where the leaf has them */
    SNP_CPUID_TABLE_DIFFERS = 2,   /* the register of its row lacks a feature bit of the other's, is a smaller save area (D.0.ECX), or else differs */
    SNP_CPUID_TABLE_BEYOND = 3,    /* it has a row that `from` lacks, other than a subleaf from 2 up of leaf Dh of a further mask bit */
    SNP_CPUID_TABLE_MASK_LACKS = 4 /* its combined mask lacks a bit of the other's; never so of tables that were built, pooled or read */
};

/* What comparing two tables gives. What the answer does not name is 0. */
struct snp_cpuid_tables_compared {
    uint32_t answer; /* an enum snp_cpuid_tables_answer */
    uint32_t leaf;
    uint32_t has_subleaf;
    uint32_t subleaf;
    uint32_t register_index; /* an enum snp_cpuid_register */
};

/* The answer decides what comes next, and is not to be dropped. */
#define SNP_CPUID_DECIDES static inline __attribute__((warn_unused_result))

/* Builds the table of CPUID pages into *table. A refusal leaves a table without rows, all zeros. */
SNP_CPUID_DECIDES struct snp_cpuid_built snp_cpuid_build_into(struct snp_cpuid_kept_table *table, struct snp_cpuid_bytes pages,
                                                              struct snp_cpuid_options options);

/* Whether the table allows the processor's XCR0 and XSS: 13 where XCR0 lacks bit 0 or has a bit that D.0.EAX lacks, or XSS has a bit that the table's
 * XSS lacks, so any bit where D.1.EAX lacks bit 1 or bit 3; then 14 where the compacted size does not fit 32 bits. Ask when either register changes,
 * or the table does, and keep the answer for the exits in between. */
SNP_CPUID_DECIDES struct snp_cpuid_state snp_cpuid_state_of(const struct snp_cpuid_kept_table *table, struct snp_cpuid_processor processor);

/* The row that the processor's guest reads at a CPUID exit, with a state that snp_cpuid_state_of gave for the same table, XCR0 and XSS, and number 0.
 * Any other state changes D.1.EBX and nothing else. The guest's row differs from the table's in a few registers: 1.EBX bits 24-31, B.0.EDX and
 * B.1.EDX have the x2APIC number; 1.ECX bit 27 is set where osxsave is true and bit 26 is set; D.0.EBX is the size of the save area of XCR0, and
 * FFFFFFFFh where it does not fit 32 bits, which is never so of a table that was built or pooled; D.1.EBX is the size of the compacted area of XCR0
 * and XSS, or 0 where the processor has neither XSAVEC nor XSAVES. Leaf 8000001Eh and subleaves of leaf Bh from 2 up are the same on every
 * processor. */
static inline struct snp_cpuid_found snp_cpuid_guest_find_kept(const struct snp_cpuid_kept_table *table, struct snp_cpuid_processor processor,
                                                               struct snp_cpuid_state state, struct snp_cpuid_query query);

/* Both in one call: 13 and 14 first, whatever the row, then the row. */
static inline struct snp_cpuid_guest_found snp_cpuid_guest_find(const struct snp_cpuid_kept_table *table, struct snp_cpuid_processor processor,
                                                                struct snp_cpuid_query query);

/* Writes the table's image: for each row byte 1, leaf, EAX, EBX, ECX, EDX, or byte 2, leaf, subleaf and the four, each number 4 bytes little-endian.
 * Rows ascend by leaf, as an unsigned number, then by subleaf. Number 9 where the room is too short. */
SNP_CPUID_DECIDES struct snp_cpuid_written snp_cpuid_write_table_image(const struct snp_cpuid_kept_table *table, struct snp_cpuid_room out);

/* Whether the table `to` has every row of `from`, at least its features, a save area no smaller and all else equal, rows 0, 80000000h, B.0 and B.1
 * and bit 28 of 1.EDX too, and beyond it only subleaves of leaf Dh of further mask bits; or the first thing in the way. Origins are not compared.
 * Ask it before the guest moves.
 * Feature registers are 1.ECX and EDX but its bit 28; 7.0.EBX, ECX and EDX; 80000001h.ECX and EDX; 80000008h.EBX; D.0.EAX; D.1.EAX and ECX;
 * 8000001Ah.EAX; 8000001Fh.EAX. */
SNP_CPUID_DECIDES struct snp_cpuid_tables_compared snp_cpuid_compare_tables(struct snp_cpuid_move move);

/* What a number means, in English. */
static inline const char *snp_cpuid_words(uint32_t number);

/* Writes a refusal with its details in English, in the words of the Rust crate, to the front of out: as much of the message as room has bytes for,
 * and a 0 after it, which room counts too. Where room is 0, nothing is written. Gives the length of the whole message without the 0, as snprintf
 * does. It calls nothing of a C library. subleaf is read only where has_subleaf is not 0. Number 0 and numbers not in use give what snp_cpuid_words
 * gives. */
static inline size_t snp_cpuid_message(struct snp_cpuid_refusal refusal, char *out, size_t room);

/* The most bytes that the image of a table built from pages can have, and its list for KVM; and the two pages that a list is read into. */
#define SNP_CPUID_MOST_IMAGE_BYTES 732
#define SNP_CPUID_MOST_KVM_BYTES 1288
#define SNP_CPUID_KVM_PAGES_BYTES 8192

/* The same of a table of any content, which may have 88 rows. */
#define SNP_CPUID_ANY_IMAGE_BYTES 2132
#define SNP_CPUID_ANY_KVM_BYTES 3528

/* The most servers that a pool can have. */
#define SNP_CPUID_MOST_SERVERS 16

/* The most bytes that a line can have. */
#define SNP_CPUID_MOST_LINE_BYTES 22

/* The bytes of the list of topologies. */
#define SNP_CPUID_TOPOLOGIES_BYTES 5095

/* The bytes of a fingerprint. */
#define SNP_CPUID_FINGERPRINT_BYTES 32

/* Enough room for any message of snp_cpuid_message, its final 0 included. */
#define SNP_CPUID_MOST_MESSAGE_BYTES 160

/* Enough stack for any function: docs/EMBEDDING.md has the figure of each. */
#define SNP_CPUID_MOST_STACK_BYTES 8192

/* ==== 2. The rest: more over a table, pools of servers, lists for KVM, editions, servers by their pages, lines */

/* How many rows a table has, and its combined mask. */
struct snp_cpuid_counts {
    uint64_t row_count;
    uint64_t max_extended_state;
};

/* The row of the table itself, which the paravisor reads. */
static inline struct snp_cpuid_found snp_cpuid_find(const struct snp_cpuid_kept_table *table, struct snp_cpuid_query query);

/* How many rows the table has, and its combined mask. */
static inline struct snp_cpuid_counts snp_cpuid_counts_of(const struct snp_cpuid_kept_table *table);

/* A fingerprint. */
struct snp_cpuid_digest {
    uint8_t bytes[SNP_CPUID_FINGERPRINT_BYTES];
};

/* The table's fingerprint: the SHA-256 (FIPS 180-4) of the image that snp_cpuid_write_table_image writes. Two tables have one fingerprint where their
 * rows and combined masks are equal, and otherwise only if their images are a collision of SHA-256. Print it beside a figure, and the figure says
 * under which table it was computed. Origins do not count. A table without rows has the fingerprint of no bytes. */
static inline struct snp_cpuid_digest snp_cpuid_fingerprint_of(const struct snp_cpuid_kept_table *table);

/* Makes the table what the guest of a processor sees, in place; origins stay. A refusal by 13 or 14 leaves a table without rows: copy the table first
 * where the paravisor's is still needed. */
SNP_CPUID_DECIDES struct snp_cpuid_built snp_cpuid_become_guest(struct snp_cpuid_kept_table *table, struct snp_cpuid_processor processor);

/* What reading an image gives: is_image 1 with the counts of its table, or all zeros. */
struct snp_cpuid_read {
    uint32_t is_image;
    uint64_t row_count;
    uint64_t max_extended_state;
};

/* Reads an image into *table. The rows' origins are 3, as an image has none. Bytes are an image where they are rows as snp_cpuid_write_table_image
 * lays them out, of leaves and subleaves that a table can have, ascending, each at most once, and none is left over; no bytes are the image of a
 * table without rows. Bytes that are no image leave a table without rows. */
SNP_CPUID_DECIDES struct snp_cpuid_read snp_cpuid_read_image_into(struct snp_cpuid_kept_table *table, struct snp_cpuid_bytes image);

/* Writes the table as struct kvm_cpuid2: a count and a zero word, then 40 bytes a row (function, index, flags, EAX, EBX, ECX, EDX, three zero words),
 * KVM_CPUID_FLAG_SIGNIFCANT_INDEX where the row has a subleaf, else flags and index 0; rows ascend by leaf, then by subleaf. Number 9 where the room
 * is too short. */
SNP_CPUID_DECIDES struct snp_cpuid_written snp_cpuid_write_table_kvm(const struct snp_cpuid_kept_table *table, struct snp_cpuid_room out);

/* Reads a struct kvm_cpuid2 into two pages: rows of leaf Dh on page 1 and all others on page 0, in list order, function as EAX_IN and index as
 * ECX_IN, all other bytes of the pages 0. Refusals in this order: 10, 12, 11, 9. A table written, read and built again under the same choices is the
 * same. */
SNP_CPUID_DECIDES struct snp_cpuid_written snp_cpuid_read_kvm_pages(struct snp_cpuid_bytes list, struct snp_cpuid_room out);

/* The servers of a pool: their page sets end to end, and the bytes of each, in server order. */
struct snp_cpuid_servers {
    struct snp_cpuid_bytes pages;
    const uint64_t *lengths;
    size_t count;
};

/* What a pool of servers gives. A refused pool has row_count 0 and max_extended_state 0. */
struct snp_cpuid_pooled {
    SNP_CPUID_REFUSAL;
    uint32_t server; /* the index, from 0, of the server whose own refusal it is, else 0 */
    uint64_t row_count;
    uint64_t max_extended_state; /* the combined mask */
};

/* Builds one table for a pool of 2 to 16 servers, which a guest may keep when it moves between them. The choices are the same for all. Feature
 * registers of the servers' first entries are joined by and, all else is the first server's, and the table is built of that: its feature registers
 * and combined mask are the and of the servers' tables', its rows are those that all have, and origins are the first server's. Refusals in this
 * order: 18; then any server's own, in server order, which server tells (an edition that is not known is the first's own, 15); then 19. A refusal
 * leaves a table without rows. */
SNP_CPUID_DECIDES struct snp_cpuid_pooled snp_cpuid_pool_into(struct snp_cpuid_kept_table *table, struct snp_cpuid_servers servers,
                                                              struct snp_cpuid_options options);

/* From one edition of the AVX rule to another. */
struct snp_cpuid_editions {
    uint32_t from;
    uint32_t to;
};

/* Takes a running table from one edition to another in place, on a processor with this XCR0 and XSS. The bits that the later
 * edition clears besides (struct snp_cpuid_options) are cleared where the table's own D.0.EAX lacks bit 2, rows that it lacks reading as zeros, and
 * nothing else changes; within one edition nothing does. So a table that was built under edition 1 becomes the one that edition 2 makes of the same
 * pages, and both save sizes of the processor's guest stay.
 * Gives 0, or in this order 15 where either edition is not known; 16 from a later edition to an earlier one; then 13 and 14, as a guest has them,
 * also within one edition. The table is then as it was. Origins are only read. */
SNP_CPUID_DECIDES uint32_t snp_cpuid_carry_table(struct snp_cpuid_kept_table *table, struct snp_cpuid_editions editions,
                                                 struct snp_cpuid_processor processor);

/* What carrying an image gives: is_image 0 and number 0 where the bytes are no table's image, which is no numbered refusal; else is_image 1 with
 * number 0, or 13 to 16. */
struct snp_cpuid_carried {
    uint32_t is_image;
    uint32_t number;
};

/* The same of a table that is handed over as its image and rewritten in place; where it refuses, or the bytes are no image, they are as they were. */
SNP_CPUID_DECIDES struct snp_cpuid_carried snp_cpuid_carry_image(struct snp_cpuid_room image, struct snp_cpuid_editions editions,
                                                                 struct snp_cpuid_processor processor);

/* Two servers by their CPUID pages: has `to` (B) at least what `from` (A) has? */
struct snp_cpuid_pages_move {
    struct snp_cpuid_bytes from;
    struct snp_cpuid_bytes to;
};

/* Of NO_ENTRY and DIFFERS it is the first by rising leaf, subleaf and register. */
enum snp_cpuid_pages_answer {
    SNP_CPUID_PAGES_RISE = 0,      /* B's pages have what A's table has, and more only in feature bits */
    SNP_CPUID_PAGES_A_REFUSED = 1, /* A itself is refused: number and its details say why */
    SNP_CPUID_PAGES_B_UNREAD = 2,  /* B's length (number 1), a count of its pages (2) or a reserved byte of an entry (17) is not lawful */
    SNP_CPUID_PAGES_NO_ENTRY = 3,  /* B has no entry for the leaf, and subleaf where the leaf has them, that A's table has */
    SNP_CPUID_PAGES_DIFFER = 4     /* the register of B's entry lacks a bit of A's where it is a feature register, or else differs */
};

/* What comparing two servers gives. What the answer does not name is 0. Answers 1 and 2 alone are refusals: under 3 and 4 the number is 0. */
struct snp_cpuid_compared {
    uint32_t answer; /* an enum snp_cpuid_pages_answer */
    SNP_CPUID_REFUSAL;
    uint32_t register_index; /* an enum snp_cpuid_register */
};

/* Compares two servers by their pages, under the same choices. Each row of A's table must have its entry in B's pages, except rows 0 and 80000000h,
 * which the library makes itself. Registers are compared as masked, D.0.EAX with bits 0 and 1 set on both sides, whatever the edition. Feature
 * registers of B must have every bit of A's; D.0.ECX and all of B.0 and B.1 are left free; all else must be equal, bit 28 of 1.EDX too. An edition
 * that is not known is answer 1 with number 15. After a yes, building B gives a table with every row of A's, at least A's bits in every feature
 * register, a save area no smaller and all else equal; or refuses it by 3, for a subleaf of leaf Dh that B's own further state needs, or by 5. So
 * build B's table too before a guest of A moves there. */
SNP_CPUID_DECIDES struct snp_cpuid_compared snp_cpuid_compare_pages(struct snp_cpuid_pages_move move, struct snp_cpuid_options options);

/* Where the first entry for a leaf stands: number 0 with found 1, its page and its position on the page, both counted from 0, or with found 0 and
 * zeros where there is none; or number 1, 2 or 17 where the pages are not lawful, and 17 names its leaf. */
struct snp_cpuid_first {
    SNP_CPUID_REFUSAL;
    uint32_t found;
    uint64_t page;
    uint32_t entry;
};

/* Finds the first entry for a leaf that a table keeps, and for the subleaf where the leaf has them; of the query leaf and subleaf alone are read.
 * The entries are those below their page's count, pages in order; one of leaf Dh counts on page 1 alone. Whether the pages give a table does not
 * matter: where they do, and it has the row, the entry is the row's origin, except for B.0 and B.1, which the library makes itself. After a
 * comparison that names a leaf, this tells which entries of A and B differ. Nothing is found for a leaf or subleaf that no table keeps, 0 and
 * 80000000h among them. */
static inline struct snp_cpuid_first snp_cpuid_find_entry(struct snp_cpuid_bytes pages, struct snp_cpuid_query query);

/* The nearest bit that matters: number 0 with the bit's page, entry, register and bit, all from 0; else 15, 1, 2, 17 or 20, and no bit. */
struct snp_cpuid_nearest_answer {
    SNP_CPUID_REFUSAL;
    uint32_t entry;
    uint64_t page;
    uint32_t register_index; /* an enum snp_cpuid_register */
    uint32_t bit;
};

/* The first result bit, in entries below their page's count and ordered by page, entry, register and bit from 0, whose flip alone makes building
 * answer otherwise: another table, refusal or detail. The pages are not written. Refusals in this order: 15, 1, 2 and 17, as building gives them;
 * then 20 where no flip changes anything, which is so exactly where building gives 3 for a leaf of the two required lists. Of pages that building
 * refuses otherwise some bit always decides: INVLPGB's, at the latest. */
static inline struct snp_cpuid_nearest_answer snp_cpuid_nearest_bit(struct snp_cpuid_bytes pages, struct snp_cpuid_options options);

/* What writing a line gives: is_line 0, all others 0, where there is no such line, which is no numbered refusal; else is_line 1 with number 0 and
 * the line's length, or number 9 and length 0. */
struct snp_cpuid_line_written {
    uint32_t is_line;
    uint32_t number;
    uint64_t length;
};

/* What a line says: is_line 1 with the number and its details, or all zeros where the bytes are no line. */
struct snp_cpuid_line_read {
    uint32_t is_line;
    SNP_CPUID_REFUSAL;
};

/* Writes a refusal as one line of ASCII: the number in decimal, then, each after one space, the details that it names, leaf in eight hexadecimal
 * capitals, subleaf (left out where there is none) and s in decimal, and a newline. subleaf is read only where has_subleaf is not 0. There is no such
 * line where the number is not in use, s is above 255, or a detail is set that the number does not name: a leaf or s that is not 0, or a subleaf. */
SNP_CPUID_DECIDES struct snp_cpuid_line_written snp_cpuid_write_refusal(struct snp_cpuid_refusal refusal, struct snp_cpuid_room out);

/* Reads the whole of the bytes. They are a line exactly where snp_cpuid_write_refusal writes the same bytes for what they say. */
SNP_CPUID_DECIDES struct snp_cpuid_line_read snp_cpuid_read_refusal(struct snp_cpuid_bytes line);

/* Writes every topology that building accepts with s from 0 to 7, five bytes each: s (80000008h.ECX bits 12-15), nc (its bits 0-7), lps (1.EBX bits
 * 16-23), mt (1.EDX bit 28) and t (8000001Eh.EBX bits 8-15). They ascend by s, nc, lps, mt and t in turn, none stands twice, and there are 1,019.
 * Pages whose inputs are on the list are refused by none of 6, 7 and 8; other pages with s up to 7 are never accepted. Number 9 where the room is
 * below SNP_CPUID_TOPOLOGIES_BYTES. */
SNP_CPUID_DECIDES struct snp_cpuid_written snp_cpuid_write_all_topologies(struct snp_cpuid_room out);

/* ==== 3. The raw functions: what the library exports, on loose arguments. Nothing warns where two of one type change places, so that they can be
 * called only where SNP_CPUID_RAW is defined. Each does what the function of part 1 or 2 does that takes its arguments in structs. */

/* made: raw functions, from the proved source by tests/gate/interface.py --write */
/* -- over the two arrays of a table */

/* The fingerprint of a table of any content, and its counts: a table without rows has the fingerprint of no bytes. */
struct snp_cpuid_counts snp_cpuid_table_fingerprint(const uint32_t *registers, const uint64_t *origins, uint8_t *digest);

/* Builds one table for servers whose page sets stand end to end into the caller's memory; a refusal leaves a table without rows. */
struct snp_cpuid_pooled snp_cpuid_table_pool(const uint8_t *pages, size_t length, const uint64_t *lengths, size_t servers, bool secure_avic,
                                             uint32_t edition, uint32_t *registers, uint64_t *origins);

/* Builds the table of the given pages into the caller's memory; a refusal leaves a table without rows. */
struct snp_cpuid_built snp_cpuid_table_build(const uint8_t *pages, size_t length, bool secure_avic, uint32_t edition, uint32_t *registers,
                                             uint64_t *origins);

/* Reads a table's image into the caller's memory; bytes that are no image leave a table without rows. */
struct snp_cpuid_read snp_cpuid_table_read_image(const uint8_t *image, size_t length, uint32_t *registers, uint64_t *origins);

/* Looks a row up as leaf_result_ref does, in a table of any content. */
struct snp_cpuid_found snp_cpuid_table_find(const uint32_t *registers, const uint64_t *origins, uint32_t leaf, bool has_subleaf, uint32_t subleaf,
                                            bool enforce_subleaf);

/* What the guest of a processor reads at a CPUID exit: the verdict on its state, then one row as it sees it. */
struct snp_cpuid_guest_found snp_cpuid_table_guest_find(const uint32_t *registers, const uint64_t *origins, uint32_t x2apic, uint64_t xcr0,
                                                        uint64_t xss, bool osxsave, uint32_t leaf, bool has_subleaf, uint32_t subleaf,
                                                        bool enforce_subleaf);

/* Whether a table gives XCR0 and XSS, and the compacted size of the save area over them: what a caller keeps until either changes. */
struct snp_cpuid_state snp_cpuid_table_state(const uint32_t *registers, const uint64_t *origins, uint64_t xcr0, uint64_t xss);

/* What the guest of a processor reads where its state was accepted before: one row, with the compacted size that the caller kept. */
struct snp_cpuid_found snp_cpuid_table_guest_find_kept(const uint32_t *registers, const uint64_t *origins, uint32_t x2apic, uint64_t xcr0,
                                                       uint64_t xss, bool osxsave, uint32_t size, uint32_t leaf, bool has_subleaf, uint32_t subleaf,
                                                       bool enforce_subleaf);

/* Makes a table what the guest of a processor sees; a refusal by 13 or 14 leaves a table without rows. */
struct snp_cpuid_built snp_cpuid_table_guest(uint32_t *registers, uint64_t *origins, uint32_t x2apic, uint64_t xcr0, uint64_t xss, bool osxsave);

/* Writes a table's image at the front of `out`. */
struct snp_cpuid_written snp_cpuid_table_write_image(const uint32_t *registers, const uint64_t *origins, uint8_t *out, size_t room);

/* Writes a table's struct kvm_cpuid2 at the front of `out`. */
struct snp_cpuid_written snp_cpuid_table_write_kvm(const uint32_t *registers, const uint64_t *origins, uint8_t *out, size_t room);

/* Takes a table from one edition of the AVX rule to another, in place: 0, or 13 to 16 and the table as it was. Origins are only read. */
uint32_t snp_cpuid_table_carry(uint32_t *registers, const uint64_t *origins, uint32_t from, uint32_t to, uint64_t xcr0, uint64_t xss);

/* Whether the second table has at least the first: every row, its features, its save area, all else equal; or the first thing in the way. */
struct snp_cpuid_tables_compared snp_cpuid_table_compare(const uint32_t *a_registers, const uint64_t *a_origins, const uint32_t *b_registers,
                                                         const uint64_t *b_origins);

/* How many rows a table has, and its combined mask. */
struct snp_cpuid_counts snp_cpuid_table_counts(const uint32_t *registers, const uint64_t *origins);

/* -- of pages, lists, images and lines */

/* Where the first counted entry of a leaf and subleaf stands, whether or not the pages give a table. */
struct snp_cpuid_first snp_cpuid_first_entry(const uint8_t *pages, size_t length, uint32_t leaf, uint32_t subleaf);

/* Whether a guest of the server with pages `a` may move to the one with pages `b`, or the first thing in the way. */
struct snp_cpuid_compared snp_cpuid_compare(const uint8_t *a, size_t a_length, const uint8_t *b, size_t b_length, bool secure_avic, uint32_t edition);

/* Carries the table whose image the bytes are, in place. */
struct snp_cpuid_carried snp_cpuid_carry(uint8_t *image, size_t length, uint32_t from, uint32_t to, uint64_t xcr0, uint64_t xss);

/* Reads a struct kvm_cpuid2 into two pages at the front of `out`. */
struct snp_cpuid_written snp_cpuid_read_kvm(const uint8_t *list, size_t length, uint8_t *out, size_t room);

/* Writes the line of a refusal at the front of `out`. */
struct snp_cpuid_line_written snp_cpuid_write_line(uint32_t number, uint32_t leaf, bool has_subleaf, uint32_t subleaf, uint32_t s, uint8_t *out,
                                                   size_t room);

/* The refusal whose line the bytes are, the whole of them. */
struct snp_cpuid_line_read snp_cpuid_read_line(const uint8_t *line, size_t length);

/* The first result bit whose flip changes the answer of building. */
struct snp_cpuid_nearest_answer snp_cpuid_nearest(const uint8_t *pages, size_t length, bool secure_avic, uint32_t edition);

/* Writes all accepted inputs at the front of `out`, five bytes each. */
struct snp_cpuid_written snp_cpuid_write_topologies(uint8_t *out, size_t room);

/* -- the 11 that build and make one call of those over a table: with a table at hand, call that */

/* Builds the table of the given pages. */
struct snp_cpuid_built snp_cpuid_build(const uint8_t *pages, size_t length, bool secure_avic, uint32_t edition);

/* Builds, and looks a row up as leaf_result_ref does; with the row it tells where it came from. */
struct snp_cpuid_found snp_cpuid_lookup(const uint8_t *pages, size_t length, bool secure_avic, uint32_t edition, uint32_t leaf, bool has_subleaf,
                                        uint32_t subleaf, bool enforce_subleaf);

/* Builds, and writes the image at the front of `out`. */
struct snp_cpuid_written snp_cpuid_write_image(const uint8_t *pages, size_t length, bool secure_avic, uint32_t edition, uint8_t *out, size_t room);

/* Builds, and gives the table's fingerprint; a refusal has the table without rows, whose image is no bytes. */
struct snp_cpuid_built snp_cpuid_fingerprint(const uint8_t *pages, size_t length, bool secure_avic, uint32_t edition, uint8_t *digest);

/* Builds the table of the given pages, and tells whether the table allows the processor's state. */
struct snp_cpuid_built snp_cpuid_guest_build(const uint8_t *pages, size_t length, bool secure_avic, uint32_t edition, uint32_t x2apic, uint64_t xcr0,
                                             uint64_t xss, bool osxsave);

/* Builds, and looks a row up in the guest's table as leaf_result_ref does in the paravisor's, whose row's origin it has. */
struct snp_cpuid_found snp_cpuid_guest_lookup(const uint8_t *pages, size_t length, bool secure_avic, uint32_t edition, uint32_t x2apic, uint64_t xcr0,
                                              uint64_t xss, bool osxsave, uint32_t leaf, bool has_subleaf, uint32_t subleaf, bool enforce_subleaf);

/* Builds, and writes the image of the guest's table at the front of `out`. */
struct snp_cpuid_written snp_cpuid_write_guest_image(const uint8_t *pages, size_t length, bool secure_avic, uint32_t edition, uint32_t x2apic,
                                                     uint64_t xcr0, uint64_t xss, bool osxsave, uint8_t *out, size_t room);

/* Builds, and writes the table's struct kvm_cpuid2 at the front of `out`. */
struct snp_cpuid_written snp_cpuid_write_kvm(const uint8_t *pages, size_t length, bool secure_avic, uint32_t edition, uint8_t *out, size_t room);

/* Builds one table for servers whose page sets stand end to end. */
struct snp_cpuid_pooled snp_cpuid_pool(const uint8_t *pages, size_t length, const uint64_t *lengths, size_t servers, bool secure_avic,
                                       uint32_t edition);

/* Builds, and looks a row up as leaf_result_ref does; with the row it tells where it stood in the first server's pages. */
struct snp_cpuid_found snp_cpuid_pool_lookup(const uint8_t *pages, size_t length, const uint64_t *lengths, size_t servers, bool secure_avic,
                                             uint32_t edition, uint32_t leaf, bool has_subleaf, uint32_t subleaf, bool enforce_subleaf);

/* Builds, and writes the image of the pool's table at the front of `out`. */
struct snp_cpuid_written snp_cpuid_write_pool_image(const uint8_t *pages, size_t length, const uint64_t *lengths, size_t servers, bool secure_avic,
                                                    uint32_t edition, uint8_t *out, size_t room);
/* end: raw functions */

#undef SNP_CPUID_REFUSAL
#undef SNP_CPUID_REFUSAL_FIELDS

/* ==== The bodies of parts 1 and 2 */

/* Refers to the symbol of the library, by a no-op that names it. */
#define SNP_CPUID_REFER(name) __asm__ volatile("nopl " #name "(%rip)")
#define SNP_CPUID_REFER_TO(name) SNP_CPUID_REFER(name)
static inline void snp_cpuid_same_interface(void)
{
#ifndef SNP_CPUID_SHARED
    SNP_CPUID_REFER_TO(SNP_CPUID_INTERFACE);
#endif
}

/* made: words, of include/refusals.txt by tests/gate/interface.py --write */
static inline const char *snp_cpuid_words(uint32_t number)
{
    switch (number) {
    case SNP_CPUID_ACCEPTED: return "accepted";
    case SNP_CPUID_PAGES_LENGTH: return "the pages' length is 0 or no multiple of 4096";
    case SNP_CPUID_PAGE_COUNT: return "a page's count is above 64";
    case SNP_CPUID_MISSING_REQUIRED_RESULT: return "a required result is missing";
    case SNP_CPUID_INVLPGB_UNAVAILABLE: return "INVLPGB is unavailable";
    case SNP_CPUID_SAVE_AREA_OVERFLOW: return "a save area's size does not fit 32 bits";
    case SNP_CPUID_HYPERTHREADING: return "topology: hyperthreading is inconsistent";
    case SNP_CPUID_PROCESSOR_COUNT: return "topology: the processor counts are inconsistent";
    case SNP_CPUID_THREADS_PER_UNIT: return "topology: the threads per unit are inconsistent";
    case SNP_CPUID_BUFFER_TOO_SHORT: return "the buffer is shorter than what would be written";
    case SNP_CPUID_LIST_LENGTH: return "the list's length does not fit its count";
    case SNP_CPUID_LIST_ROWS: return "the list has more than 64 rows for one page";
    case SNP_CPUID_LIST_FIELDS: return "a flag of the list is not 0 or 1, or a word that must be zero is not";
    case SNP_CPUID_STATE_BEYOND_TABLE: return "the table does not allow this XCR0 or XSS";
    case SNP_CPUID_COMPACT_SIZE_TOO_LARGE: return "the compacted save area's size does not fit 32 bits";
    case SNP_CPUID_UNKNOWN_EDITION: return "the edition of the AVX rule is neither 1 nor 2";
    case SNP_CPUID_EDITION_BACK: return "a table cannot go from edition 2 back to 1";
    case SNP_CPUID_RESERVED_BYTES: return "a reserved byte of an entry is not zero";
    case SNP_CPUID_POOL_SETS: return "a pool takes 2 to 16 page sets, whose lengths sum to the bytes";
    case SNP_CPUID_POOL_DIFFERS: return "the pool's servers differ elsewhere than in features";
    case SNP_CPUID_NOTHING_DECIDES: return "no single result bit changes the answer";
    default: return "no such number";
    }
}

/* The text of a message: %l stands for the leaf and %c for the subleaf, both in hexadecimal, %s for s and %p for 2 to the power of s. */
static inline const char *snp_cpuid_message_text(struct snp_cpuid_refusal refusal)
{
    switch (refusal.number) {
    case SNP_CPUID_PAGES_LENGTH:
        return "the CPUID pages must be one or more whole pages of 4,096 bytes";
    case SNP_CPUID_PAGE_COUNT:
        return "a CPUID page counts more than 64 entries: the page is damaged or no CPUID page";
    case SNP_CPUID_MISSING_REQUIRED_RESULT:
        if (!refusal.has_subleaf) return "no entry for leaf %lh, which every guest needs";
        if (refusal.leaf == 0xD) return "no entry for leaf Dh subleaf %ch on page 1, where the entries of Dh must stand";
        return "no entry for leaf %lh subleaf %ch, which every guest needs";
    case SNP_CPUID_INVLPGB_UNAVAILABLE:
        return "INVLPGB (80000008h.EBX bit 3) is required but unavailable";
    case SNP_CPUID_SAVE_AREA_OVERFLOW:
        return "the size of an extended state (Dh: EAX + EBX of a subleaf) does not fit 32 bits";
    case SNP_CPUID_HYPERTHREADING:
        return "the topology leaves disagree: the processor count does not go with the hyperthreading flag, 1.EDX bit 28 "
               "(APIC core id size %s)";
    case SNP_CPUID_PROCESSOR_COUNT:
        if (refusal.s == 0) return "the topology leaves disagree: 1.EBX bits 16-23 must be 80000008h.ECX bits 0-7 plus 1 (APIC core id size 0)";
        if (refusal.s < 8) return "the topology leaves disagree: 1.EBX bits 16-23 must be 2^%s = %p, and 80000008h.ECX bits 0-7 plus 1 no more "
               "(APIC core id size %s)";
        return "the topology leaves disagree: the processor counts of 1.EBX and 80000008h.ECX disagree (APIC core id size %s)";
    case SNP_CPUID_THREADS_PER_UNIT:
        return "the topology leaves disagree: 8000001Eh.EBX gives more threads per unit than there can be";
    case SNP_CPUID_BUFFER_TOO_SHORT:
        return "the buffer is too short: 732 bytes suffice for a built table's image, 1288 for its list for KVM, 8192 for a "
               "list's pages";
    case SNP_CPUID_LIST_LENGTH:
        return "the list for KVM must have 8 bytes and 40 for each row that it counts";
    case SNP_CPUID_LIST_ROWS:
        return "the list for KVM has more rows of leaf Dh, or of all others, than the 64 of a page";
    case SNP_CPUID_LIST_FIELDS:
        return "the list for KVM has a flag other than 0 or 1, or a word that must be zero is not";
    case SNP_CPUID_STATE_BEYOND_TABLE:
        return "XCR0 lacks bit 0 (x87) or has a bit that D.0.EAX lacks, or XSS has a bit that D.1.ECX lacks";
    case SNP_CPUID_COMPACT_SIZE_TOO_LARGE:
        return "the size of the compacted save area of XCR0 and XSS (D.1.EBX) does not fit 32 bits";
    case SNP_CPUID_UNKNOWN_EDITION:
        return "the AVX rule has no such edition: it has editions 1 and 2";
    case SNP_CPUID_EDITION_BACK:
        return "a table does not go from edition 2 of the AVX rule back to edition 1";
    case SNP_CPUID_RESERVED_BYTES:
        return "an entry for leaf %lh has a reserved byte, one of its last eight, that is not zero";
    case SNP_CPUID_POOL_SETS:
        return "a pool has 2 to 16 page sets, and their lengths sum to the bytes handed over";
    case SNP_CPUID_POOL_DIFFERS:
        return "the servers of the pool differ, in a row that all their tables have, elsewhere than in feature bits or the "
               "size of the save area";
    case SNP_CPUID_NOTHING_DECIDES:
        return "no single result bit changes the answer when it is flipped";
    default: return snp_cpuid_words(refusal.number);
    }
}
/* end: words */

static inline size_t snp_cpuid_message(struct snp_cpuid_refusal refusal, char *out, size_t room)
{
    size_t length = 0;
    for (const char *text = snp_cpuid_message_text(refusal); *text; text++) {
        char written[10] = {*text}; /* one character of the text, or the digits of a number from the last to the first */
        size_t count = 1;
        if (*text == '%') {
            char mark = *++text;
            uint32_t base = mark == 'l' || mark == 'c' ? 16 : 10;
            uint32_t left = mark == 'l' ? refusal.leaf : mark == 'c' ? refusal.subleaf : mark == 'p' ? (uint32_t)1 << refusal.s : refusal.s;
            for (count = 0; count == 0 || left > 0; left /= base) written[count++] = "0123456789ABCDEF"[left % base];
        }
        for (; count > 0; length++) {
            count--;
            if (length < room) out[length] = written[count];
        }
    }
    if (room > 0) out[length < room ? length : room - 1] = 0;
    return length;
}

static inline struct snp_cpuid_built snp_cpuid_build_into(struct snp_cpuid_kept_table *table, struct snp_cpuid_bytes pages,
                                                          struct snp_cpuid_options options)
{
    snp_cpuid_same_interface();
    return snp_cpuid_table_build(pages.at, pages.length, options.secure_avic, options.edition, table->registers, table->origins);
}

static inline struct snp_cpuid_state snp_cpuid_state_of(const struct snp_cpuid_kept_table *table, struct snp_cpuid_processor processor)
{
    return snp_cpuid_table_state(table->registers, table->origins, processor.xcr0, processor.xss);
}

static inline struct snp_cpuid_found snp_cpuid_guest_find_kept(const struct snp_cpuid_kept_table *table, struct snp_cpuid_processor processor,
                                                               struct snp_cpuid_state state, struct snp_cpuid_query query)
{
    return snp_cpuid_table_guest_find_kept(table->registers, table->origins, processor.x2apic, processor.xcr0, processor.xss, processor.osxsave,
                                           state.size, query.leaf, !query.without_subleaf, query.subleaf, query.enforce_subleaf);
}

static inline struct snp_cpuid_guest_found snp_cpuid_guest_find(const struct snp_cpuid_kept_table *table, struct snp_cpuid_processor processor,
                                                                struct snp_cpuid_query query)
{
    return snp_cpuid_table_guest_find(table->registers, table->origins, processor.x2apic, processor.xcr0, processor.xss, processor.osxsave,
                                      query.leaf, !query.without_subleaf, query.subleaf, query.enforce_subleaf);
}

static inline struct snp_cpuid_written snp_cpuid_write_table_image(const struct snp_cpuid_kept_table *table, struct snp_cpuid_room out)
{
    return snp_cpuid_table_write_image(table->registers, table->origins, out.at, out.length);
}

static inline struct snp_cpuid_tables_compared snp_cpuid_compare_tables(struct snp_cpuid_move move)
{
    return snp_cpuid_table_compare(move.from->registers, move.from->origins, move.to->registers, move.to->origins);
}

static inline struct snp_cpuid_found snp_cpuid_find(const struct snp_cpuid_kept_table *table, struct snp_cpuid_query query)
{
    return snp_cpuid_table_find(table->registers, table->origins, query.leaf, !query.without_subleaf, query.subleaf, query.enforce_subleaf);
}

static inline struct snp_cpuid_counts snp_cpuid_counts_of(const struct snp_cpuid_kept_table *table)
{
    return snp_cpuid_table_counts(table->registers, table->origins);
}

static inline struct snp_cpuid_digest snp_cpuid_fingerprint_of(const struct snp_cpuid_kept_table *table)
{
    struct snp_cpuid_digest digest;
    (void)snp_cpuid_table_fingerprint(table->registers, table->origins, digest.bytes);
    return digest;
}

static inline struct snp_cpuid_built snp_cpuid_become_guest(struct snp_cpuid_kept_table *table, struct snp_cpuid_processor processor)
{
    return snp_cpuid_table_guest(table->registers, table->origins, processor.x2apic, processor.xcr0, processor.xss, processor.osxsave);
}

static inline struct snp_cpuid_read snp_cpuid_read_image_into(struct snp_cpuid_kept_table *table, struct snp_cpuid_bytes image)
{
    snp_cpuid_same_interface();
    return snp_cpuid_table_read_image(image.at, image.length, table->registers, table->origins);
}

static inline struct snp_cpuid_written snp_cpuid_write_table_kvm(const struct snp_cpuid_kept_table *table, struct snp_cpuid_room out)
{
    return snp_cpuid_table_write_kvm(table->registers, table->origins, out.at, out.length);
}

static inline struct snp_cpuid_written snp_cpuid_read_kvm_pages(struct snp_cpuid_bytes list, struct snp_cpuid_room out)
{
    snp_cpuid_same_interface();
    return snp_cpuid_read_kvm(list.at, list.length, out.at, out.length);
}

static inline struct snp_cpuid_pooled snp_cpuid_pool_into(struct snp_cpuid_kept_table *table, struct snp_cpuid_servers servers,
                                                          struct snp_cpuid_options options)
{
    snp_cpuid_same_interface();
    return snp_cpuid_table_pool(servers.pages.at, servers.pages.length, servers.lengths, servers.count, options.secure_avic, options.edition,
                                table->registers, table->origins);
}

static inline uint32_t snp_cpuid_carry_table(struct snp_cpuid_kept_table *table, struct snp_cpuid_editions editions,
                                             struct snp_cpuid_processor processor)
{
    return snp_cpuid_table_carry(table->registers, table->origins, editions.from, editions.to, processor.xcr0, processor.xss);
}

static inline struct snp_cpuid_carried snp_cpuid_carry_image(struct snp_cpuid_room image, struct snp_cpuid_editions editions,
                                                             struct snp_cpuid_processor processor)
{
    snp_cpuid_same_interface();
    return snp_cpuid_carry(image.at, image.length, editions.from, editions.to, processor.xcr0, processor.xss);
}

static inline struct snp_cpuid_compared snp_cpuid_compare_pages(struct snp_cpuid_pages_move move, struct snp_cpuid_options options)
{
    snp_cpuid_same_interface();
    return snp_cpuid_compare(move.from.at, move.from.length, move.to.at, move.to.length, options.secure_avic, options.edition);
}

static inline struct snp_cpuid_first snp_cpuid_find_entry(struct snp_cpuid_bytes pages, struct snp_cpuid_query query)
{
    snp_cpuid_same_interface();
    return snp_cpuid_first_entry(pages.at, pages.length, query.leaf, query.subleaf);
}

static inline struct snp_cpuid_nearest_answer snp_cpuid_nearest_bit(struct snp_cpuid_bytes pages, struct snp_cpuid_options options)
{
    snp_cpuid_same_interface();
    return snp_cpuid_nearest(pages.at, pages.length, options.secure_avic, options.edition);
}

static inline struct snp_cpuid_line_written snp_cpuid_write_refusal(struct snp_cpuid_refusal refusal, struct snp_cpuid_room out)
{
    snp_cpuid_same_interface();
    return snp_cpuid_write_line(refusal.number, refusal.leaf, refusal.has_subleaf != 0, refusal.subleaf, refusal.s, out.at, out.length);
}

static inline struct snp_cpuid_line_read snp_cpuid_read_refusal(struct snp_cpuid_bytes line)
{
    snp_cpuid_same_interface();
    return snp_cpuid_read_line(line.at, line.length);
}

static inline struct snp_cpuid_written snp_cpuid_write_all_topologies(struct snp_cpuid_room out)
{
    snp_cpuid_same_interface();
    return snp_cpuid_write_topologies(out.at, out.length);
}

#undef SNP_CPUID_REFER
#undef SNP_CPUID_REFER_TO
#undef SNP_CPUID_DECIDES

/* From here on a raw function has no name, unless the caller asked for it. */
#ifndef SNP_CPUID_RAW
/* made: raw names, from the proved source by tests/gate/interface.py --write */
#pragma GCC poison snp_cpuid_table_fingerprint
#pragma GCC poison snp_cpuid_table_pool
#pragma GCC poison snp_cpuid_table_build
#pragma GCC poison snp_cpuid_table_read_image
#pragma GCC poison snp_cpuid_table_find
#pragma GCC poison snp_cpuid_table_guest_find
#pragma GCC poison snp_cpuid_table_state
#pragma GCC poison snp_cpuid_table_guest_find_kept
#pragma GCC poison snp_cpuid_table_guest
#pragma GCC poison snp_cpuid_table_write_image
#pragma GCC poison snp_cpuid_table_write_kvm
#pragma GCC poison snp_cpuid_table_carry
#pragma GCC poison snp_cpuid_table_compare
#pragma GCC poison snp_cpuid_table_counts
#pragma GCC poison snp_cpuid_build
#pragma GCC poison snp_cpuid_lookup
#pragma GCC poison snp_cpuid_first_entry
#pragma GCC poison snp_cpuid_write_image
#pragma GCC poison snp_cpuid_compare
#pragma GCC poison snp_cpuid_carry
#pragma GCC poison snp_cpuid_fingerprint
#pragma GCC poison snp_cpuid_guest_build
#pragma GCC poison snp_cpuid_guest_lookup
#pragma GCC poison snp_cpuid_write_guest_image
#pragma GCC poison snp_cpuid_write_kvm
#pragma GCC poison snp_cpuid_read_kvm
#pragma GCC poison snp_cpuid_write_line
#pragma GCC poison snp_cpuid_read_line
#pragma GCC poison snp_cpuid_nearest
#pragma GCC poison snp_cpuid_pool
#pragma GCC poison snp_cpuid_pool_lookup
#pragma GCC poison snp_cpuid_write_pool_image
#pragma GCC poison snp_cpuid_write_topologies
/* end: raw names */
#endif

#ifdef __cplusplus
}
#endif

#endif
