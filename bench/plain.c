/* The same functions in C, written for speed: the yardstick of docs/PERFORMANCE.md, and nothing that the port uses. Checks, refusals, editions and
 * origins are the port's, and so are the words in the caller's memory.
 *
 * Where the speed comes from: eight instructions for an entry that cannot add a row (`open`); one word for what is missing, whose lowest bit is the
 * refusal's; rows that are copied once, with their masks, from the entries into constant places; rows of leaf Dh only where the combined mask has
 * their states; memory that is cleared once, where no row will stand; an image of constant leaves; answers written where they are returned. */
#include "plain.h"

#include <string.h>

/* so that a constant argument reaches the loops inside */
#define INLINE static inline __attribute__((always_inline))

enum { PLACES = 88, PAGE = 4096, MADE_HERE = 1, FIRST_ENTRY = 4 };

/* the places of rows; those of a leaf with subleaves follow each other, and so do 80000000h to 80000008h */
enum { AT_0, AT_1, AT_5, AT_7, AT_B, AT_D = 6, AT_X0 = 70, AT_X1, AT_X8 = 78, AT_XA, AT_X19, AT_X1A, AT_X1D, AT_X1E = 86, AT_X1F };

/* Rows and pages in the caller's memory. Pages may stand at any address; the machine stores numbers as the firmware does. */
struct row {
    uint32_t eax, ebx, ecx, edx;
} __attribute__((packed, may_alias));

struct entry {
    uint32_t leaf, subleaf;
    uint64_t xcr0, xss;
    struct row row;
    uint64_t reserved;
} __attribute__((packed, may_alias));

struct page {
    uint32_t count;
    uint8_t unread[12];
    struct entry entries[64];
    uint8_t rest[PAGE - 16 - 64 * sizeof(struct entry)];
} __attribute__((packed, may_alias));

_Static_assert(sizeof(struct entry) == 48 && sizeof(struct page) == PAGE, "the firmware's layout");

#define BIT(number) ((uint64_t)1 << (number))

/* states 0 and 1 are in every save area, and their rows D.0 and D.1 are of another kind */
static inline uint64_t above_1(uint64_t states)
{
    return states & ~(uint64_t)3;
}

/* ---- leaves */

/* A leaf turned left by one bit: 0 to 63 for leaves 0 to 1Fh and 80000000h to 8000001Fh, and more for all others. */
#define KEY(leaf) ((uint32_t)(leaf) << 1 | (uint32_t)(leaf) >> 31)
enum { KEYS = 64 };

/* the rows that every table needs from its pages, in the order in which building asks for them */
enum { NEEDED = 24, NEEDED_D = 13 };
static const struct {
    uint32_t leaf;
    uint8_t has_subleaf, subleaf;
} NEEDS[NEEDED] = {
    {1, 0, 0}, {5, 0, 0}, {7, 1, 0}, {0xb, 1, 0}, {0xb, 1, 1}, {0x80000001, 0, 0}, {0x80000005, 0, 0}, {0x80000006, 0, 0}, {0x80000007, 0, 0},
    {0x80000008, 0, 0}, {0x80000002, 0, 0}, {0x80000003, 0, 0}, {0x80000004, 0, 0}, {0xd, 1, 0}, {0xd, 1, 1}, {0x8000001f, 0, 0}, {0x8000000a, 0, 0},
    {0x80000019, 0, 0}, {0x8000001a, 0, 0}, {0x8000001d, 1, 0}, {0x8000001d, 1, 1}, {0x8000001d, 1, 2}, {0x8000001d, 1, 3}, {0x8000001e, 0, 0}};

/* The leaves that a table has: the place of the first row, how many there can be, and where the first stands in NEEDS. */
enum kind { NOT_KEPT, ONE_ROW, SUBLEAVES };
static const struct leaf {
    uint32_t needs; /* the bits of its rows in `missing` */
    uint8_t order, place, rows, kind;
} LEAVES[KEYS] = {
#define LEAF(number, place, order) [KEY(number)] = {1u << (order), order, place, 1, ONE_ROW}
#define LEAF_OF(number, place, rows, order) [KEY(number)] = {((1u << (rows)) - 1) << (order), order, place, rows, SUBLEAVES}
    LEAF(1, AT_1, 0), LEAF(5, AT_5, 1), LEAF_OF(7, AT_7, 1, 2), LEAF_OF(0xb, AT_B, 2, 3), LEAF(0x80000001, AT_X1, 5), LEAF(0x80000005, 75, 6),
    LEAF(0x80000006, 76, 7), LEAF(0x80000007, 77, 8), LEAF(0x80000008, AT_X8, 9), LEAF(0x80000002, 72, 10), LEAF(0x80000003, 73, 11),
    LEAF(0x80000004, 74, 12), LEAF(0x8000001f, AT_X1F, 15), LEAF(0x8000000a, AT_XA, 16), LEAF(0x80000019, AT_X19, 17), LEAF(0x8000001a, AT_X1A, 18),
    LEAF_OF(0x8000001d, AT_X1D, 4, 19), LEAF(0x8000001e, AT_X1E, 23),
    /* no entry of these is collected by this list */
    [KEY(0)] = {0, 0, AT_0, 1, ONE_ROW}, [KEY(0x80000000)] = {0, 0, AT_X0, 1, ONE_ROW}, [KEY(0xd)] = {0, 0, AT_D, 64, SUBLEAVES}};

static const uint64_t COLLECTED =
    BIT(KEY(1)) | BIT(KEY(5)) | BIT(KEY(7)) | BIT(KEY(0xb)) | BIT(KEY(0x80000001)) | BIT(KEY(0x80000002)) | BIT(KEY(0x80000003)) |
    BIT(KEY(0x80000004)) | BIT(KEY(0x80000005)) | BIT(KEY(0x80000006)) | BIT(KEY(0x80000007)) | BIT(KEY(0x80000008)) | BIT(KEY(0x8000000a)) |
    BIT(KEY(0x80000019)) | BIT(KEY(0x8000001a)) | BIT(KEY(0x8000001d)) | BIT(KEY(0x8000001e)) | BIT(KEY(0x8000001f));

/* ---- collecting */

/* The first entries: of each place but Dh's, and of each subleaf of Dh. Which of the pointers are set, the words tell. */
struct collected {
    const struct entry *first[PLACES], *state[64];
    uint64_t open;    /* the keys of the leaves that can still add a row, but Dh */
    uint64_t states;  /* bit n: there is an entry for Dh subleaf n */
    uint32_t missing; /* bit n: there is no entry for NEEDS[n] */
};

/* Collects the first entries of page p, with their origins where these are asked for; on page 1 also those of Dh. Gives all reserved bytes, or-ed. */
INLINE uint64_t collect_page(struct collected *c, const struct page *page, size_t p, bool with_states, uint64_t *origins)
{
    const struct entry *end = page->entries + page->count;
    uint64_t reserved = 0, open = c->open, states = c->states;
    uint32_t missing = c->missing;
    for (const struct entry *e = page->entries; e != end; e++) {
        reserved |= e->reserved;
        if (with_states && e->leaf == 0xd) {
            if (e->subleaf < 64 && !(states >> e->subleaf & 1)) {
                states |= BIT(e->subleaf);
                c->state[e->subleaf] = e;
            }
            continue;
        }
        uint32_t key = KEY(e->leaf);
        if (!(open >> (key & 63) & 1) || key >= KEYS)
            continue;
        const struct leaf *leaf = &LEAVES[key];
        unsigned place = leaf->place;
        if (leaf->kind == ONE_ROW) {
            missing ^= leaf->needs;
            open ^= BIT(key);
        } else {
            uint32_t order = leaf->order + e->subleaf;
            if (e->subleaf >= leaf->rows || !(missing >> order & 1))
                continue;
            place += e->subleaf;
            missing ^= 1u << order;
            if (!(missing & leaf->needs))
                open ^= BIT(key);
        }
        c->first[place] = e;
        if (origins)
            origins[place] = FIRST_ENTRY + 64 * (uint64_t)p + (uint64_t)(e - page->entries);
    }
    c->open = open;
    c->states = states;
    c->missing = missing;
    return reserved;
}

/* Collects the first entries of all pages, up to the first page where a reserved byte is not zero: then gives the first entry that has one. */
INLINE const struct entry *collect(struct collected *c, const struct page *pages, size_t count, uint64_t *origins)
{
    c->open = COLLECTED;
    c->states = 0;
    c->missing = BIT(NEEDED) - 1;
    for (size_t p = 0; p < count; p++) {
        uint64_t reserved = p == 1 ? collect_page(c, &pages[p], p, true, origins) : collect_page(c, &pages[p], p, false, origins);
        if (reserved)
            for (const struct entry *e = pages[p].entries;; e++)
                if (e->reserved)
                    return e;
    }
    c->missing &= ~(uint32_t)((c->states & 3) << NEEDED_D);
    return NULL;
}

/* ---- masking */

/* four registers that are masked as one */
typedef uint32_t registers __attribute__((vector_size(16), aligned(1), may_alias));

static inline void copy_masked(struct row *row, const struct entry *e, uint32_t eax, uint32_t ebx, uint32_t ecx, uint32_t edx)
{
    *(registers *)row = *(const registers *)&e->row & (registers){eax, ebx, ecx, edx};
}

/* Copies all rows that come from entries but D.2 to D.63. D.0 gets the two states that every processor has. */
static inline void copy_rows(struct row *restrict rows, const struct collected *c, bool secure_avic)
{
    const uint32_t all = 0xffffffff;
    const struct entry *const *first = c->first;
    copy_masked(&rows[AT_1], first[AT_1], 0x0fff3fff, all, 0x7eda3203, 0x178bfbff);
    rows[AT_5] = first[AT_5]->row;
    copy_masked(&rows[AT_7], first[AT_7], all, 0xf1bf27a9, 0x1a405fe6, 0x00804110);
    copy_masked(&rows[AT_D], c->state[0], 0xe7, all, all, 0);
    rows[AT_D].eax |= 3;
    copy_masked(&rows[AT_D + 1], c->state[1], 0xb, all, 0x1800, 0);
    copy_masked(&rows[AT_X1], first[AT_X1], 0x0fff3fff, 0xf000ffff, 0x410df3, 0xefd3fbff);
    for (int k = AT_X1 + 1; k < AT_X8; k++)
        rows[k] = first[k]->row;
    copy_masked(&rows[AT_X8], first[AT_X8], 0xffff, 0x3112d21f, 0xf0ff, all);
    copy_masked(&rows[AT_XA], first[AT_XA], 0xff, 0, 0, 0);
    copy_masked(&rows[AT_X19], first[AT_X19], all, all, 0, 0);
    copy_masked(&rows[AT_X1A], first[AT_X1A], 7, 0, 0, 0);
    for (int k = AT_X1D; k < AT_X1E; k++)
        rows[k] = first[k]->row;
    copy_masked(&rows[AT_X1E], first[AT_X1E], all, all, all, 0);
    copy_masked(&rows[AT_X1F], first[AT_X1F], secure_avic ? 0x400027f : 0x27f, 0xffff, all, all);
}

/* ---- checking */

static struct snp_cpuid_built refuse(uint32_t number, uint32_t leaf, uint32_t s)
{
    return (struct snp_cpuid_built){.number = number, .leaf = leaf, .s = s};
}

static struct snp_cpuid_built missing(uint32_t leaf, uint32_t has_subleaf, uint32_t subleaf)
{
    return (struct snp_cpuid_built){.number = 3, .leaf = leaf, .has_subleaf = has_subleaf, .subleaf = subleaf};
}

/* what the checks find out */
struct checked {
    uint64_t xfem, xss, area;     /* the states of D.0.EAX, those of D.1.ECX, and the size of a save area with all of XFEM */
    uint32_t processors, threads; /* processors of a package, and threads of a unit less 1 */
};

/* 0; or 5 where a state ends beyond 32 bits */
static inline uint32_t check_area(const struct collected *c, struct checked *to)
{
    to->area = 576;
    for (uint64_t left = above_1(to->xfem); left; left &= left - 1) {
        const struct row *row = &c->state[__builtin_ctzll(left)]->row;
        uint64_t end = (uint64_t)row->eax + row->ebx;
        if (end > to->area)
            to->area = end;
    }
    return to->area > 0xffffffff ? 5 : 0;
}

/* 0, 6, 7 or 8; s is how many bits of an APIC number tell the core */
static inline uint32_t check_topology(const struct row *rows, uint32_t s, struct checked *to)
{
    uint32_t others = rows[AT_X8].ecx & 255, logical = rows[AT_1].ebx >> 16 & 255, hyperthreading = rows[AT_1].edx >> 28 & 1;
    to->threads = rows[AT_X1E].ebx >> 8 & 255;
    to->processors = 1u << s;
    if (s == 0 && !hyperthreading) {
        if (others != 0 || logical > 1)
            return 6;
    } else if (s == 0) {
        if (logical != others + 1)
            return 7;
        to->processors = logical;
    } else if (s < 8) {
        if (others >= to->processors || logical != to->processors)
            return 7;
        if (!hyperthreading)
            return 6;
    }
    return to->threads > 1 || to->threads >= to->processors ? 8 : 0;
}

/* ---- finishing */

/* the bits that go with a state or feature that is not there, and the registers and rows that are made here */
static inline void finish(struct row *restrict rows, const struct checked *from, uint32_t edition)
{
    struct row *r1 = &rows[AT_1], *r7 = &rows[AT_7], *x1 = &rows[AT_X1], *x8 = &rows[AT_X8];
    if (!(from->xfem & 4)) {
        r1->ecx &= ~0x10001000u;
        r7->ebx &= ~0x20u;
        r7->ecx &= ~0x700u;
        if (edition == 2) {
            r1->ecx &= ~(1u << 29);
            x1->ecx &= ~(1u << 11 | 1u << 16);
        }
    }
    if ((from->xfem & 0xe4) != 0xe4) {
        r7->ebx &= ~0xd0230000u;
        r7->ecx &= ~0x5842u;
        r7->edx &= ~0x800100u;
    }
    if ((from->xss & 0x1800) != 0x1800)
        r7->ecx &= ~0x80u;
    if (!from->xss)
        rows[AT_D + 1].ecx = 0;
    if (!(x8->ebx >> 12 & 1))
        x8->ebx &= ~0xc000u;
    if (!(rows[AT_X1F].eax >> 9 & 1)) {
        x1->edx &= ~(1u << 27);
        r7->ecx &= ~(1u << 22);
    }
    r1->ecx |= 1u << 31;
    x8->ebx |= 1u << 29;
    rows[AT_D].ecx = (uint32_t)from->area;
    rows[AT_0] = (struct row){0xd, 0x68747541, 0x444d4163, 0x69746e65};
    rows[AT_X0] = (struct row){0x8000001f, 0x68747541, 0x444d4163, 0x69746e65};
    rows[AT_B] = (struct row){from->threads, from->threads + 1, 0x100, 0};
    uint32_t bits = from->processors > 1 ? 32 - (uint32_t)__builtin_clz(from->processors - 1) : 0;
    rows[AT_B + 1] = (struct row){bits, from->processors, 0x201, 0};
}

/* Builds all rows but D.2 to D.63, which stay in c->state; the answer's mask tells which of them the table has. On a refusal rows and origins are of
 * any content. */
INLINE struct snp_cpuid_built build(struct collected *c, const uint8_t *bytes, size_t length, bool secure_avic, uint32_t edition,
                                    struct row *restrict rows, uint64_t *origins)
{
    const struct page *pages = (const struct page *)bytes;
    if (edition != 1 && edition != 2)
        return refuse(15, 0, 0);
    if (length == 0 || length % PAGE)
        return refuse(1, 0, 0);
    for (size_t p = 0; p < length / PAGE; p++)
        if (pages[p].count > 64)
            return refuse(2, 0, 0);
    const struct entry *unclean = collect(c, pages, length / PAGE, origins);
    if (unclean)
        return refuse(17, unclean->leaf, 0);
    if (c->missing) {
        int n = __builtin_ctz(c->missing);
        return missing(NEEDS[n].leaf, NEEDS[n].has_subleaf, NEEDS[n].subleaf);
    }
    copy_rows(rows, c, secure_avic);
    if (!(rows[AT_X8].ebx >> 3 & 1))
        return refuse(4, 0, 0);
    const struct row *d1 = &rows[AT_D + 1];
    struct checked checked = {.xfem = rows[AT_D].eax, .xss = (d1->eax & 0xa) == 0xa ? d1->ecx : 0};
    uint64_t mask = checked.xfem | checked.xss, absent = mask & ~c->states;
    if (absent)
        return missing(0xd, 1, __builtin_ctzll(absent));
    uint32_t s = rows[AT_X8].ecx >> 12 & 15, number = check_area(c, &checked);
    if (number)
        return refuse(number, 0, 0);
    number = check_topology(rows, s, &checked);
    if (number)
        return refuse(number, 0, number == 8 ? 0 : s);
    finish(rows, &checked, edition);
    struct snp_cpuid_built built = {.row_count = 26, .max_extended_state = mask};
    for (uint64_t left = above_1(mask); left; left &= left - 1)
        built.row_count++;
    return built;
}

build_function plain_table_build __attribute__((nonnull));

struct snp_cpuid_built plain_table_build(const uint8_t *pages, size_t length, bool secure_avic, uint32_t edition, uint32_t *words, uint64_t *origins)
{
    struct row *rows = (struct row *)words;
    struct collected c;
    struct snp_cpuid_built built = build(&c, pages, length, secure_avic, edition, rows, origins);
    if (built.number) {
        memset(rows, 0, PLACES * sizeof *rows);
        memset(origins, 0, PLACES * sizeof *origins);
        return built;
    }
    memset(&rows[AT_D + 2], 0, 62 * sizeof *rows);
    memset(&origins[AT_D + 2], 0, 62 * sizeof *origins);
    origins[AT_0] = origins[AT_X0] = origins[AT_B] = origins[AT_B + 1] = MADE_HERE;
    for (uint64_t left = built.max_extended_state; left; left &= left - 1) {
        unsigned state = __builtin_ctzll(left);
        if (state > 1)
            rows[AT_D + state] = c.state[state]->row;
        origins[AT_D + state] = FIRST_ENTRY + 64 + (uint64_t)(c.state[state] - ((const struct page *)pages)[1].entries);
    }
    return built;
}

/* ---- the image */

static inline uint8_t *put(uint8_t *out, const void *bytes, size_t length)
{
    memcpy(out, bytes, length);
    return out + length;
}

static inline uint8_t *put_row(uint8_t *out, uint32_t leaf, const struct row *row)
{
    *out++ = 1;
    return put(put(out, &leaf, sizeof leaf), row, sizeof *row);
}

static inline uint8_t *put_subleaf(uint8_t *out, uint32_t leaf, uint32_t subleaf, const struct row *row)
{
    *out++ = 2;
    return put(put(put(out, &leaf, sizeof leaf), &subleaf, sizeof subleaf), row, sizeof *row);
}

struct snp_cpuid_written plain_write_image(const uint8_t *pages, size_t length, bool secure_avic, uint32_t edition, uint8_t *out, size_t room)
{
    struct row rows[PLACES];
    struct collected c;
    struct snp_cpuid_built built = build(&c, pages, length, secure_avic, edition, rows, NULL);
    if (built.number)
        return (struct snp_cpuid_written){.refusal = built.refusal};
    size_t bytes = 582 + 25 * (size_t)(built.row_count - 26);
    if (room < bytes)
        return (struct snp_cpuid_written){.number = 9};
    out = put_row(out, 0, &rows[AT_0]);
    out = put_row(out, 1, &rows[AT_1]);
    out = put_row(out, 5, &rows[AT_5]);
    out = put_subleaf(out, 7, 0, &rows[AT_7]);
    out = put_subleaf(out, 0xb, 0, &rows[AT_B]);
    out = put_subleaf(out, 0xb, 1, &rows[AT_B + 1]);
    out = put_subleaf(out, 0xd, 0, &rows[AT_D]);
    out = put_subleaf(out, 0xd, 1, &rows[AT_D + 1]);
    for (uint64_t left = above_1(built.max_extended_state); left; left &= left - 1) {
        unsigned state = __builtin_ctzll(left);
        out = put_subleaf(out, 0xd, state, &c.state[state]->row);
    }
    for (uint32_t k = 0; k <= 8; k++)
        out = put_row(out, 0x80000000 + k, &rows[AT_X0 + k]);
    out = put_row(out, 0x8000000a, &rows[AT_XA]);
    out = put_row(out, 0x80000019, &rows[AT_X19]);
    out = put_row(out, 0x8000001a, &rows[AT_X1A]);
    for (uint32_t k = 0; k < 4; k++)
        out = put_subleaf(out, 0x8000001d, k, &rows[AT_X1D + k]);
    out = put_row(out, 0x8000001e, &rows[AT_X1E]);
    put_row(out, 0x8000001f, &rows[AT_X1F]);
    return (struct snp_cpuid_written){.length = bytes};
}

/* ---- one row of a table */

/* Whether a lookup asks for a place, and for which: a leaf with subleaves where one is given, any other where none is given or it is not enforced. */
static inline bool asked(uint32_t number, bool has_subleaf, uint32_t subleaf, bool enforce, size_t *place)
{
    uint32_t key = KEY(number);
    if (key >= KEYS)
        return false;
    const struct leaf *leaf = &LEAVES[key];
    *place = leaf->place;
    if (leaf->kind == ONE_ROW)
        return !(has_subleaf && enforce);
    *place += subleaf;
    return leaf->kind == SUBLEAVES && has_subleaf && subleaf < leaf->rows;
}

/* A row and its origin, into the fields of an answer. */
static inline void answer(const uint32_t *words, size_t place, uint64_t number, uint32_t *eax, uint32_t *origin, uint64_t *page, uint32_t *entry)
{
    memcpy(eax, words + 4 * place, sizeof(struct row));
    if (number >= FIRST_ENTRY) {
        *origin = 2;
        *page = (number - FIRST_ENTRY) / 64;
        *entry = (number - FIRST_ENTRY) % 64;
    } else {
        *origin = (uint32_t)number;
        *page = 0;
        *entry = 0;
    }
}

struct snp_cpuid_found plain_table_find(const uint32_t *words, const uint64_t *origins, uint32_t leaf, bool has_subleaf, uint32_t subleaf,
                                        bool enforce)
{
    struct snp_cpuid_found f;
    size_t place;
    if (!asked(leaf, has_subleaf, subleaf, enforce, &place) || !origins[place]) {
        f = (struct snp_cpuid_found){0};
        return f;
    }
    f.found = 1;
    answer(words, place, origins[place], &f.eax, &f.origin, &f.page, &f.entry);
    return f;
}

/* ---- one row as a guest sees it */

static inline const struct row *state_row(const uint32_t *words, unsigned state)
{
    return (const struct row *)words + AT_D + state;
}

/* 0, 13 or 14, and the compacted size */
static inline uint32_t check_state(const uint32_t *words, uint64_t xcr0, uint64_t xss, uint32_t *compacted)
{
    const struct row *d0 = state_row(words, 0), *d1 = state_row(words, 1);
    uint64_t table_xss = (d1->eax & 0xa) == 0xa ? d1->ecx : 0, size = 576;
    *compacted = 0;
    if (!(xcr0 & 1) || xcr0 & ~(uint64_t)d0->eax || xss & ~table_xss)
        return 13;
    if (!(d1->eax & 0xa))
        return 0;
    for (uint64_t left = above_1(xcr0 | xss); left; left &= left - 1) {
        const struct row *row = state_row(words, __builtin_ctzll(left));
        if (row->ecx & 2)
            size = (size + 63) & ~(uint64_t)63;
        size += row->eax;
    }
    if (size > 0xffffffff)
        return 14;
    *compacted = (uint32_t)size;
    return 0;
}

static inline uint32_t area_of(const uint32_t *words, uint64_t xcr0)
{
    uint64_t size = 576;
    for (uint64_t left = above_1(xcr0); left; left &= left - 1) {
        const struct row *row = state_row(words, __builtin_ctzll(left));
        uint64_t end = (uint64_t)row->eax + row->ebx;
        if (end > size)
            size = end;
    }
    return size > 0xffffffff ? 0xffffffff : (uint32_t)size;
}

/* the registers that differ from the table's */
static inline void show(const uint32_t *words, uint32_t x2apic, uint64_t xcr0, bool osxsave, uint32_t size, size_t place, struct row *row)
{
    switch (place) {
    case AT_1:
        row->ebx = (row->ebx & 0xffffff) | x2apic << 24;
        row->ecx = osxsave && row->ecx >> 26 & 1 ? row->ecx | 1u << 27 : row->ecx & ~(1u << 27);
        break;
    case AT_B: case AT_B + 1: row->edx = x2apic; break;
    case AT_D: row->ebx = area_of(words, xcr0); break;
    case AT_D + 1: row->ebx = size; break;
    }
}

struct snp_cpuid_found plain_table_guest_find_kept(const uint32_t *words, const uint64_t *origins, uint32_t x2apic, uint64_t xcr0, uint64_t xss,
                                                   bool osxsave, uint32_t size, uint32_t leaf, bool has_subleaf, uint32_t subleaf, bool enforce)
{
    (void)xss;
    struct snp_cpuid_found f;
    size_t place;
    if (!asked(leaf, has_subleaf, subleaf, enforce, &place) || !origins[place]) {
        f = (struct snp_cpuid_found){0};
        return f;
    }
    f.found = 1;
    answer(words, place, origins[place], &f.eax, &f.origin, &f.page, &f.entry);
    show(words, x2apic, xcr0, osxsave, size, place, (struct row *)&f.eax);
    return f;
}

struct snp_cpuid_guest_found plain_table_guest_find(const uint32_t *words, const uint64_t *origins, uint32_t x2apic, uint64_t xcr0, uint64_t xss,
                                                    bool osxsave, uint32_t leaf, bool has_subleaf, uint32_t subleaf, bool enforce)
{
    struct snp_cpuid_guest_found f;
    uint32_t size, number = check_state(words, xcr0, xss, &size);
    size_t place;
    if (number) {
        f = (struct snp_cpuid_guest_found){.number = number};
        return f;
    }
    if (!asked(leaf, has_subleaf, subleaf, enforce, &place) || !origins[place]) {
        f = (struct snp_cpuid_guest_found){0};
        return f;
    }
    f.number = 0;
    f.found = 1;
    answer(words, place, origins[place], &f.eax, &f.origin, &f.page, &f.entry);
    show(words, x2apic, xcr0, osxsave, size, place, (struct row *)&f.eax);
    return f;
}
