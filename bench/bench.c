/* The proved library beside the C of one compiler or two and, with WITH_RUST, the Rust of differential/oracle, in one process.
 *
 *   bench PAGES
 *
 * Each round times all on the same input, in turns. A line for each work and input has tabs between its words: the work, the input, the port's median
 * in ns, and for each other one name, median and the median of the rounds' ratios: port / C, or Rust / port. bench/run links it in six orders. The
 * Rust builds its set of leaves, and writes no image. A further line has the port alone: a pool of 16 servers, 16 single builds, and the ratio.
 * With WITH_CRATE there are lines with the functions of the crate in rust/ (rust.rs): the function, the input, the port's median as C calls it, the
 * crate's, and crate / port; and the last has finds by the port and in the map of map.rs, and map / port.
 *
 *   bench PAGES functions|loops
 *
 * calls all in turn, for counts of instructions: a line with work, input and maker for each call of `counted`. Functions are those of port and C;
 * loops are the crate's, and those that make the same calls from C. */
#include "plain.h"
#include "timing.h"

#include <stdio.h>
#include <string.h>

enum { ROOM = 1024, EDITION = 1 };

/* port and plain C have functions of the same types, and all are called by pointer */
#define DECLARE(maker) \
    write_image_function maker##_write_image; \
    build_function maker##_table_build; \
    find_function maker##_table_find; \
    guest_find_function maker##_table_guest_find; \
    guest_find_kept_function maker##_table_guest_find_kept;
#define MAKER(maker) \
    {#maker, maker##_write_image, maker##_table_build, maker##_table_find, maker##_table_guest_find, maker##_table_guest_find_kept}

DECLARE(gcc)
DECLARE(clang)

static const struct maker {
    const char *name;
    write_image_function *write_image;
    build_function *build;
    find_function *find;
    guest_find_function *guest_find;
    guest_find_kept_function *guest_find_kept;
} MAKERS[] = {
    MAKER(snp_cpuid),
    MAKER(gcc),
#ifdef WITH_CLANG
    MAKER(clang),
#endif
};

enum { N_MAKERS = sizeof MAKERS / sizeof *MAKERS, PORT = 0 };

/* ---- inputs: page sets, and a table with the exits that are asked of it */

static struct input {
    const char *name;
    const uint8_t *pages;
    size_t length;
} inputs[5];

/* two full pages with every state that a table can have: compared, not measured */
static uint8_t *rich;

static struct snp_cpuid_kept_table table;
static struct snp_cpuid_state kept;
static const struct snp_cpuid_processor CPU = {5, 7, 0x1800, true};

/* leaf and subleaf: every row of the shipped set's table, and three that no table has */
static const uint32_t EXITS[][2] = {
    {0, 0}, {1, 0}, {5, 0}, {7, 0}, {0xb, 0}, {0xb, 1}, {0xd, 0}, {0xd, 1}, {0xd, 2}, {0xd, 11}, {0xd, 12}, {0x80000000, 0}, {0x80000001, 0},
    {0x80000002, 0}, {0x80000003, 0}, {0x80000004, 0}, {0x80000005, 0}, {0x80000006, 0}, {0x80000007, 0}, {0x80000008, 0}, {0x8000000a, 0},
    {0x80000019, 0}, {0x8000001a, 0}, {0x8000001d, 0}, {0x8000001d, 1}, {0x8000001d, 2}, {0x8000001d, 3}, {0x8000001e, 0}, {0x8000001f, 0},
    {2, 0}, {0xd, 9}, {0x40000000, 0}};

enum { N_EXITS = sizeof EXITS / sizeof *EXITS };

/* ---- works */

static volatile uint64_t sink;

static void images(const struct maker *m, const struct input *in, int calls)
{
    uint8_t out[ROOM];
    for (int i = 0; i < calls; i++)
        sink += m->write_image(in->pages, in->length, false, EDITION, out, ROOM).length + out[0];
}

static void builds(const struct maker *m, const struct input *in, int calls)
{
    struct snp_cpuid_kept_table t;
    for (int i = 0; i < calls; i++)
        sink += m->build(in->pages, in->length, false, EDITION, t.registers, t.origins).row_count + t.registers[0];
}

/* A row is handed on as a handler of CPUID exits does: each register to where its guest finds it, and where the row came from. */
static volatile uint64_t guest[5];
#define HAND_ON(f) (guest[0] = (f).eax, guest[1] = (f).ebx, guest[2] = (f).ecx, guest[3] = (f).edx, guest[4] = (f).page + (f).entry)

static void finds(const struct maker *m, const struct input *in, int calls)
{
    (void)in;
    for (int i = 0; i < calls; i++) {
        struct snp_cpuid_found f = m->find(table.registers, table.origins, EXITS[i % N_EXITS][0], true, EXITS[i % N_EXITS][1], false);
        if (f.found)
            HAND_ON(f);
    }
}

static void guest_finds(const struct maker *m, const struct input *in, int calls)
{
    (void)in;
    for (int i = 0; i < calls; i++) {
        struct snp_cpuid_guest_found f = m->guest_find(table.registers, table.origins, CPU.x2apic, CPU.xcr0, CPU.xss, CPU.osxsave,
                                                       EXITS[i % N_EXITS][0], true, EXITS[i % N_EXITS][1], false);
        if (f.found)
            HAND_ON(f);
    }
}

static void guest_finds_kept(const struct maker *m, const struct input *in, int calls)
{
    (void)in;
    for (int i = 0; i < calls; i++) {
        struct snp_cpuid_found f = m->guest_find_kept(table.registers, table.origins, CPU.x2apic, CPU.xcr0, CPU.xss, CPU.osxsave, kept.size,
                                                      EXITS[i % N_EXITS][0], true, EXITS[i % N_EXITS][1], false);
        if (f.found)
            HAND_ON(f);
    }
}

enum { IMAGE, BUILD, FIND, GUEST_FIND, GUEST_FIND_KEPT, N_WORKS };

static const struct work {
    const char *name;
    void (*run)(const struct maker *, const struct input *, int calls);
    int inputs, calls;
} WORKS[N_WORKS] = {
    [IMAGE] = {"image", images, 5, 4000},
    [BUILD] = {"build", builds, 5, 4000},
    [FIND] = {"find", finds, 1, 64000},
    [GUEST_FIND] = {"guest find", guest_finds, 1, 64000},
    [GUEST_FIND_KEPT] = {"guest find, kept", guest_finds_kept, 1, 64000},
};

static const char *input_name(const struct work *work, int i)
{
    return work->inputs == 1 ? "32 exits" : inputs[i].name;
}

static double ns(const struct work *work, const struct maker *m, const struct input *in, int calls)
{
    double t = now();
    work->run(m, in, calls);
    return (now() - t) / calls;
}

/* ---- all give the same answers, bytes, memory and rows, or nothing here means anything */

static void differ(const char *name, const char *what)
{
    fprintf(stderr, "%s: the %s differ\n", name, what);
    exit(1);
}

static bool same_row(struct snp_cpuid_found a, struct snp_cpuid_found b)
{
    return a.found == b.found && a.eax == b.eax && a.ebx == b.ebx && a.ecx == b.ecx && a.edx == b.edx && a.origin == b.origin && a.page == b.page &&
           a.entry == b.entry;
}

static struct snp_cpuid_found row_of(struct snp_cpuid_guest_found g)
{
    return (struct snp_cpuid_found){g.found, g.eax, g.ebx, g.ecx, g.edx, g.origin, g.page, g.entry};
}

/* The size that a caller keeps: of this state where the table allows it, else of the state with which a processor starts. */
static uint32_t kept_size(uint64_t xcr0, uint64_t xss)
{
    struct snp_cpuid_state state = snp_cpuid_table_state(table.registers, table.origins, xcr0, xss);
    return state.number ? snp_cpuid_table_state(table.registers, table.origins, 1, 0).size : state.size;
}

static void compare_sets(const struct maker *m, const struct input *in, bool avic, uint32_t edition)
{
    uint8_t a[ROOM] = {0}, b[ROOM] = {0};
    struct snp_cpuid_kept_table s, t;
    struct snp_cpuid_written v = snp_cpuid_write_image(in->pages, in->length, avic, edition, a, ROOM);
    struct snp_cpuid_written w = m->write_image(in->pages, in->length, avic, edition, b, ROOM);
    if (v.number != w.number || v.leaf != w.leaf || v.has_subleaf != w.has_subleaf || v.subleaf != w.subleaf || v.s != w.s ||
        v.length != w.length || memcmp(a, b, ROOM))
        differ(in->name, "images");
    memset(&s, 0xa5, sizeof s);
    memset(&t, 0x5a, sizeof t);
    struct snp_cpuid_built c = snp_cpuid_table_build(in->pages, in->length, avic, edition, s.registers, s.origins);
    struct snp_cpuid_built d = m->build(in->pages, in->length, avic, edition, t.registers, t.origins);
    if (c.number != d.number || c.leaf != d.leaf || c.has_subleaf != d.has_subleaf || c.subleaf != d.subleaf || c.s != d.s ||
        c.row_count != d.row_count || c.max_extended_state != d.max_extended_state || memcmp(&s, &t, sizeof s))
        differ(in->name, "tables");
}

static void compare_rows(const struct maker *m, uint32_t leaf, bool has, uint32_t subleaf, bool enforce)
{
    if (!same_row(snp_cpuid_table_find(table.registers, table.origins, leaf, has, subleaf, enforce),
                  m->find(table.registers, table.origins, leaf, has, subleaf, enforce)))
        differ(m->name, "rows");
    const uint64_t states[][2] = {{7, 0x1800}, {3, 0}, {0, 0}, {7, 1}};
    for (int i = 0; i < 4; i++) {
        uint64_t xcr0 = states[i][0], xss = states[i][1];
        struct snp_cpuid_guest_found a = snp_cpuid_table_guest_find(table.registers, table.origins, 777, xcr0, xss, i, leaf, has, subleaf, enforce);
        struct snp_cpuid_guest_found b = m->guest_find(table.registers, table.origins, 777, xcr0, xss, i, leaf, has, subleaf, enforce);
        if (a.number != b.number || !same_row(row_of(a), row_of(b)))
            differ(m->name, "guest's rows");
        uint32_t size = kept_size(xcr0, xss);
        if (!same_row(snp_cpuid_table_guest_find_kept(table.registers, table.origins, 777, xcr0, xss, i, size, leaf, has, subleaf, enforce),
                      m->guest_find_kept(table.registers, table.origins, 777, xcr0, xss, i, size, leaf, has, subleaf, enforce)))
            differ(m->name, "guest's rows with a kept size");
    }
}

/* both pages with each bit of their counts and of their counted entries changed, one at a time: every check refuses some of these */
static void compare_flips(const struct maker *m, const uint8_t *pages)
{
    static uint8_t flipped[8192];
    const struct input in = {"a set with one bit changed", flipped, sizeof flipped};
    memcpy(flipped, pages, sizeof flipped);
    for (int p = 0; p < 2; p++)
        for (int bit = 0; bit < 8 * (16 + 48 * pages[4096 * p]); bit++) {
            flipped[4096 * p + bit / 8] ^= 1 << bit % 8;
            compare_sets(m, &in, bit / 8 % 2, bit % 2 + 1);
            flipped[4096 * p + bit / 8] ^= 1 << bit % 8;
        }
}

static void compare(const struct maker *m)
{
    for (int i = 0; i < 5; i++)
        for (int choice = 0; choice < 6; choice++)
            compare_sets(m, &inputs[i], choice % 2, choice / 2 + 1);
    compare_flips(m, inputs[0].pages);
    compare_flips(m, rich);
    for (int i = 0; i < N_EXITS; i++)
        for (int choice = 0; choice < 12; choice++)
            compare_rows(m, EXITS[i][0], choice % 2, EXITS[i][1] + choice / 4, choice / 2 % 2);
}

/* ---- measuring */

#ifdef WITH_RUST
/* differential/oracle/src/lib.rs: the rows of the table, or 0 where the Rust refuses */
size_t oracle_rows(const uint8_t *pages, size_t length);

static double rust_ns(const struct input *in, int calls)
{
    double t = now();
    for (int i = 0; i < calls; i++)
        sink += oracle_rows(in->pages, in->length);
    return (now() - t) / calls;
}
#endif

static void measure(const struct work *work, const struct input *in, const char *name)
{
    double times[N_MAKERS][ROUNDS], ratios[N_MAKERS][ROUNDS];
#ifdef WITH_RUST
    double rust[ROUNDS], rust_ratios[ROUNDS];
    if (oracle_rows(in->pages, in->length) != snp_cpuid_build(in->pages, in->length, false, EDITION).row_count)
        differ(name, "Rust's and the port's numbers of rows");
#endif
    for (int i = 0; i < ROUNDS; i++) {
        for (int k = 0; k < N_MAKERS; k++)
            times[k][i] = ns(work, &MAKERS[k], in, work->calls);
        for (int k = 0; k < N_MAKERS; k++)
            ratios[k][i] = times[PORT][i] / times[k][i];
#ifdef WITH_RUST
        rust[i] = rust_ns(in, work->calls / 4);
        rust_ratios[i] = rust[i] / times[PORT][i];
#endif
    }
    printf("%s\t%s\t%.1f", work->name, name, median(times[PORT]));
    for (int k = PORT + 1; k < N_MAKERS; k++)
        printf("\t%s\t%.1f\t%.4f", MAKERS[k].name, median(times[k]), median(ratios[k]));
#ifdef WITH_RUST
    printf("\trust\t%.1f\t%.4f", median(rust), median(rust_ratios));
#endif
    putchar('\n');
}

/* one pool of 16 servers with the same set, beside 16 builds; plain C and the Rust have no pool */
static void measure_pool(const struct input *in)
{
    enum { SERVERS = 16, CALLS = 1000 };
    double pool[ROUNDS], single[ROUNDS], ratio[ROUNDS];
    uint64_t lengths[SERVERS];
    uint8_t *sets = malloc(SERVERS * in->length), out[ROOM] = {0}, alone[ROOM] = {0};
    for (int k = 0; k < SERVERS; k++) {
        lengths[k] = in->length;
        memcpy(sets + k * in->length, in->pages, in->length);
    }
    struct snp_cpuid_written w = snp_cpuid_write_pool_image(sets, SERVERS * in->length, lengths, SERVERS, false, EDITION, out, ROOM);
    if (w.number || w.length != snp_cpuid_write_image(in->pages, in->length, false, EDITION, alone, ROOM).length || memcmp(out, alone, ROOM))
        differ("pool", "images of a pool of equals and of one of them");
    for (int i = 0; i < ROUNDS; i++) {
        double t = now();
        for (int c = 0; c < CALLS; c++)
            sink += snp_cpuid_write_pool_image(sets, SERVERS * in->length, lengths, SERVERS, false, EDITION, out, ROOM).length;
        pool[i] = (now() - t) / CALLS;
        single[i] = SERVERS * ns(&WORKS[IMAGE], &MAKERS[PORT], in, SERVERS * CALLS);
        ratio[i] = pool[i] / single[i];
    }
    printf("pool\t\t%.1f\t%.1f\t%.4f\n", median(pool), median(single), median(ratio));
    free(sets);
}

#ifdef WITH_CRATE
/* rust.rs: the crate's answers in the types of C, to be compared, without an image; and functions that each make all calls of a round */
DECLARE(crate)
static const struct maker CRATE = {"crate", snp_cpuid_write_image, crate_table_build, crate_table_find, crate_table_guest_find,
                                   crate_table_guest_find_kept};

struct questions;
const struct questions *crate_questions(const uint32_t *registers, const uint64_t *origins, uint32_t x2apic, uint64_t xcr0, uint64_t xss,
                                        bool osxsave, uint32_t size, const uint32_t (*exits)[2]);
typedef void calls_function(const struct questions *questions, const uint8_t *pages, size_t length, size_t calls);
calls_function crate_builds, crate_rebuilds, crate_finds, crate_guest_finds, crate_guest_finds_kept;
_Static_assert(N_EXITS == 32 && EDITION == 1, "as rust.rs has them");

/* what each does from C is a work */
static const struct crate_work {
    const char *name;
    int work;
    calls_function *run;
} CRATE_WORKS[] = {
    {"Table::build", BUILD, crate_builds},
    {"Table::rebuild", BUILD, crate_rebuilds},
    {"Table::lookup", FIND, crate_finds},
    {"Table::guest_row", GUEST_FIND, crate_guest_finds},
    {"Table::guest_row_kept", GUEST_FIND_KEPT, crate_guest_finds_kept},
};

enum { N_CRATE_WORKS = sizeof CRATE_WORKS / sizeof *CRATE_WORKS };

static void run_by_crate(const struct crate_work *by_crate, const struct input *in, int calls)
{
    static const struct questions *questions;
    if (!questions)
        questions = crate_questions(table.registers, table.origins, CPU.x2apic, CPU.xcr0, CPU.xss, CPU.osxsave, kept.size, EXITS);
    by_crate->run(questions, in->pages, in->length, calls);
}

static void measure_crate(const struct crate_work *by_crate)
{
    const struct work *work = &WORKS[by_crate->work];
    for (int i = 0; i < work->inputs; i++) {
        double port[ROUNDS], crate[ROUNDS], ratio[ROUNDS];
        run_by_crate(by_crate, &inputs[i], 1);
        for (int k = 0; k < ROUNDS; k++) {
            port[k] = ns(work, &MAKERS[PORT], &inputs[i], work->calls);
            double t = now();
            run_by_crate(by_crate, &inputs[i], work->calls);
            crate[k] = (now() - t) / work->calls;
            ratio[k] = crate[k] / port[k];
        }
        printf("%s\t%s\t%.1f\t%.1f\t%.4f\n", by_crate->name, input_name(work, i), median(port), median(crate), median(ratio));
    }
}

/* map.rs: the table as the Rust keeps it */
struct map;
struct map *map_new(void);
void map_put(struct map *map, uint32_t leaf, bool has_subleaf, uint32_t subleaf, const uint32_t *registers);
bool map_find(const struct map *map, uint32_t leaf, bool has_subleaf, uint32_t subleaf, bool enforce_subleaf, uint32_t *registers);

static struct snp_cpuid_found find_exit(int i, bool enforce)
{
    return snp_cpuid_table_find(table.registers, table.origins, EXITS[i][0], true, EXITS[i][1], enforce);
}

/* The table's rows; one that is found where the subleaf is enforced has a subleaf. */
static struct map *filled_map(void)
{
    struct map *map = map_new();
    for (int i = 0; i < N_EXITS; i++) {
        struct snp_cpuid_found row = find_exit(i, false);
        uint32_t registers[4] = {row.eax, row.ebx, row.ecx, row.edx};
        if (row.found)
            map_put(map, EXITS[i][0], find_exit(i, true).found, EXITS[i][1], registers);
    }
    return map;
}

/* the same finds in the map, and its time beside the port's */
static void measure_map(void)
{
    enum { CALLS = 64000 };
    double port[ROUNDS], in_map[ROUNDS], ratio[ROUNDS];
    struct map *map = filled_map();
    uint32_t r[4];
    for (int i = 0; i < N_EXITS; i++) {
        struct snp_cpuid_found row = find_exit(i, false);
        if (map_find(map, EXITS[i][0], true, EXITS[i][1], false, r) != row.found || r[0] != row.eax || r[3] != row.edx)
            differ("map", "rows");
    }
    for (int k = 0; k < ROUNDS; k++) {
        double t = now();
        for (int i = 0; i < CALLS; i++)
            sink += map_find(map, EXITS[i % N_EXITS][0], true, EXITS[i % N_EXITS][1], false, r) + r[0];
        in_map[k] = (now() - t) / CALLS;
        port[k] = ns(&WORKS[FIND], &MAKERS[PORT], &inputs[0], CALLS);
        ratio[k] = in_map[k] / port[k];
    }
    printf("map\t\t%.1f\t%.1f\t%.4f\n", median(port), median(in_map), median(ratio));
}
#endif

/* the set in the file, with both pages filled up to 64 entries by leaves that are filtered or already there */
static uint8_t *full_pages(const uint8_t *pages)
{
    uint8_t *full = malloc(8192);
    memcpy(full, pages, 8192);
    for (int p = 0; p < 2; p++) {
        uint8_t *page = full + 4096 * p;
        for (uint32_t q = page[0]; q < 64; q++)
            memcpy(page + 16 + 48 * q, page + 16 + 48 * (q % page[0]), 48);
        page[0] = 64;
    }
    return full;
}

/* full pages where copies of D.2 are D.5 to D.7, and D.0.EAX has their bits */
static uint8_t *rich_pages(const uint8_t *pages)
{
    uint8_t *full = full_pages(pages), *entries = full + 4096 + 16;
    for (int k = 0; k < 3; k++)
        entries[48 * (8 + 6 * k) + 4] = 5 + k;
    entries[24] = 0xe7;
    return full;
}

static void make_inputs(const uint8_t *pages)
{
    rich = rich_pages(pages);
    uint8_t *full = full_pages(pages), *sixteen = malloc(16 * 4096), *unclean = malloc(16 * 4096), *refused = malloc(8192);
    memcpy(sixteen, full, 8192);
    for (int p = 2; p < 16; p++)
        memcpy(sixteen + 4096 * p, full, 4096);
    memcpy(refused, full, 8192);
    refused[4096] = 0;
    memcpy(unclean, sixteen, 16 * 4096);
    unclean[16 * 4096 - 4096 + 16 + 48 * 63 + 47] = 1;
    inputs[0] = (struct input){"the shipped set, 38 entries", pages, 8192};
    inputs[1] = (struct input){"two full pages, 128 entries", full, 8192};
    inputs[2] = (struct input){"sixteen full pages, 1,024 entries", sixteen, 16 * 4096};
    inputs[3] = (struct input){"a full page and an empty one, refused by 3", refused, 8192};
    inputs[4] = (struct input){"sixteen full pages, the last entry refused by 17", unclean, 16 * 4096};
}

/* the answers of all makers beside the port's: nothing is timed before they are the same */
static void compare_all(void)
{
    for (int k = PORT + 1; k < N_MAKERS; k++)
        compare(&MAKERS[k]);
#ifdef WITH_CRATE
    compare(&CRATE);
#endif
}

static void measure_all(void)
{
    compare_all();
    for (int k = 0; k < N_WORKS; k++)
        for (int i = 0; i < WORKS[k].inputs; i++) {
#ifdef WITH_RUST
            /* the Rust makes sets of leaves alone, and takes the last input */
            if (k > IMAGE || i == 4)
                continue;
#endif
            measure(&WORKS[k], &inputs[i], input_name(&WORKS[k], i));
        }
    measure_pool(&inputs[0]);
#ifdef WITH_CRATE
    for (int k = 0; k < N_CRATE_WORKS; k++)
        measure_crate(&CRATE_WORKS[k]);
    measure_map();
#endif
}

/* ---- counting: bench/run has callgrind begin where count_functions or count_loops is called, and dump behind each call of counted or
 * counted_crate */

#define NOINLINE static __attribute__((noinline))
enum { CALLS_COUNTED = 2 * N_EXITS };

NOINLINE void counted(const struct work *work, const struct maker *m, int i, const char *name, const char *by)
{
    work->run(m, &inputs[i], CALLS_COUNTED);
    printf("%s\t%s\t%s\n", name, input_name(work, i), by);
}

NOINLINE void count_functions(void)
{
    for (int k = 0; k < N_WORKS; k++)
        for (int i = 0; i < WORKS[k].inputs; i++)
            for (int maker = 0; maker < N_MAKERS; maker++)
                counted(&WORKS[k], &MAKERS[maker], i, WORKS[k].name, MAKERS[maker].name);
}

#ifdef WITH_CRATE
NOINLINE void counted_crate(const struct crate_work *by_crate, int i)
{
    run_by_crate(by_crate, &inputs[i], CALLS_COUNTED);
    printf("%s\t%s\tcrate\n", by_crate->name, input_name(&WORKS[by_crate->work], i));
}

NOINLINE void count_loops(void)
{
    for (int k = 0; k < N_CRATE_WORKS; k++)
        for (int i = 0; i < WORKS[CRATE_WORKS[k].work].inputs; i++) {
            counted(&WORKS[CRATE_WORKS[k].work], &MAKERS[PORT], i, CRATE_WORKS[k].name, "C");
            counted_crate(&CRATE_WORKS[k], i);
        }
}
#endif

int main(int argc, char **argv)
{
    static uint8_t pages[8192];
    const char *count = argc == 3 ? argv[2] : "";
    FILE *f = argc == 2 || argc == 3 ? fopen(argv[1], "rb") : NULL;
    if (!f || fread(pages, 1, sizeof pages, f) != sizeof pages) {
        fprintf(stderr, "usage: bench PAGES [compare|functions|loops] (two pages)\n");
        return 2;
    }
    fclose(f);
    make_inputs(pages);
    snp_cpuid_table_build(pages, sizeof pages, false, EDITION, table.registers, table.origins);
    kept = snp_cpuid_table_state(table.registers, table.origins, CPU.xcr0, CPU.xss);
    if (!strcmp(count, "compare"))
        compare_all();
    else if (!strcmp(count, "functions"))
        count_functions();
#ifdef WITH_CRATE
    else if (!strcmp(count, "loops"))
        count_loops();
#endif
    else
        measure_all();
    return 0;
}
