/* Every call of parts 1 and 2 of the header beside the raw function under it, with arguments that all differ, on tables and pages that accept and
 * refuse.
 *
 *   gcc -std=c11 -O2 -Wall -Wextra -Werror -Iinclude -o target/helpers tests/c/helpers.c target/staticlib/libsnp_cpuid.a
 *   target/helpers tests/data/epyc-milan.pages
 *
 * The last line has the number of answers compared. Exit status 1 where one is not as it must be.
 */
#define SNP_CPUID_RAW
#include "snp_cpuid.h"

#include <stdio.h>
#include <string.h>
#include "same.h"

enum { PAGE = 4096, ROOM = 8192 };
static uint8_t shipped[2 * PAGE], poorer[2 * PAGE], both[4 * PAGE], lent[2][ROOM];
static struct snp_cpuid_kept_table table, other, made[2];
#define ARRAYS(table) (table).registers, (table).origins

/* answers by their fields: padding is nobody's */
#define E(field) (x.field == y.field)
#define REFUSAL E(number) && E(leaf) && E(has_subleaf) && E(subleaf) && E(s)
#define COUNTS E(row_count) && E(max_extended_state)
#define ROW E(found) && E(eax) && E(ebx) && E(ecx) && E(edx) && E(origin) && E(page) && E(entry)
#define SAME(type, fields, helper, raw) \
    do { \
        struct snp_cpuid_##type x = helper, y = raw; \
        same(fields, #helper); \
    } while (0)
#define SAME_BYTES(what) same(memcmp(lent[0], lent[1], ROOM) == 0, what)
#define SAME_TABLES(what) same(memcmp(&made[0], &made[1], sizeof made[0]) == 0, what)

/* What is asked of one table, under a processor and a query. */
static void over_table(struct snp_cpuid_processor p, struct snp_cpuid_query q) {
    bool has = !q.without_subleaf, enforce = q.enforce_subleaf;
    struct snp_cpuid_state kept = {0, 0x1234};
    SAME(found, ROW, snp_cpuid_find(&table, q), snp_cpuid_table_find(ARRAYS(table), q.leaf, has, q.subleaf, enforce));
    SAME(state, E(number) && E(size), snp_cpuid_state_of(&table, p), snp_cpuid_table_state(ARRAYS(table), p.xcr0, p.xss));
    SAME(found, ROW, snp_cpuid_guest_find_kept(&table, p, kept, q),
         snp_cpuid_table_guest_find_kept(ARRAYS(table), p.x2apic, p.xcr0, p.xss, p.osxsave, 0x1234, q.leaf, has, q.subleaf, enforce));
    SAME(guest_found, E(number) && ROW, snp_cpuid_guest_find(&table, p, q),
         snp_cpuid_table_guest_find(ARRAYS(table), p.x2apic, p.xcr0, p.xss, p.osxsave, q.leaf, has, q.subleaf, enforce));
}

/* What rewrites a table or its image, or writes it. */
static void from_table(struct snp_cpuid_processor p, struct snp_cpuid_editions e, size_t room) {
    struct snp_cpuid_room out = {lent[0], room};
    made[0] = made[1] = table;
    SAME(built, REFUSAL && COUNTS, snp_cpuid_become_guest(&made[0], p),
         snp_cpuid_table_guest(ARRAYS(made[1]), p.x2apic, p.xcr0, p.xss, p.osxsave));
    SAME_TABLES("the guest's table");
    made[0] = made[1] = table;
    same(snp_cpuid_carry_table(&made[0], e, p) == snp_cpuid_table_carry(ARRAYS(made[1]), e.from, e.to, p.xcr0, p.xss), "carry");
    SAME_TABLES("the carried table");
    SAME(written, REFUSAL && E(length), snp_cpuid_write_table_kvm(&table, out), snp_cpuid_table_write_kvm(ARRAYS(table), lent[1], room));
    SAME_BYTES("the list");
    SAME(written, REFUSAL && E(length), snp_cpuid_write_all_topologies(out), snp_cpuid_write_topologies(lent[1], room));
    SAME_BYTES("the topologies");
    SAME(written, REFUSAL && E(length), snp_cpuid_write_table_image(&table, out), snp_cpuid_table_write_image(ARRAYS(table), lent[1], room));
    SAME_BYTES("the image");
    out.length = snp_cpuid_table_write_image(ARRAYS(table), lent[1], ROOM).length;
    memcpy(lent[0], lent[1], ROOM);
    SAME(carried, E(is_image) && E(number), snp_cpuid_carry_image(out, e, p), snp_cpuid_carry(lent[1], out.length, e.from, e.to, p.xcr0, p.xss));
    SAME_BYTES("the carried image");
    struct snp_cpuid_bytes image = {lent[0], out.length};
    SAME(read, E(is_image) && COUNTS, snp_cpuid_read_image_into(&made[0], image), snp_cpuid_table_read_image(lent[1], out.length, ARRAYS(made[1])));
    SAME_TABLES("the read table");
}

/* What starts from pages. */
static void from_pages(struct snp_cpuid_options o, struct snp_cpuid_bytes pages, struct snp_cpuid_query q) {
    struct snp_cpuid_pages_move move = {{shipped, sizeof shipped}, pages};
    uint64_t lengths[] = {sizeof shipped, sizeof poorer};
    struct snp_cpuid_servers servers = {{both, sizeof both}, lengths, 2};
    SAME(built, REFUSAL && COUNTS, snp_cpuid_build_into(&made[0], pages, o),
         snp_cpuid_table_build(pages.at, pages.length, o.secure_avic, o.edition, ARRAYS(made[1])));
    SAME_TABLES("the built table");
    SAME(pooled, REFUSAL && COUNTS && E(server), snp_cpuid_pool_into(&made[0], servers, o),
         snp_cpuid_table_pool(both, sizeof both, lengths, 2, o.secure_avic, o.edition, ARRAYS(made[1])));
    SAME_TABLES("the pooled table");
    SAME(compared, E(answer) && REFUSAL && E(register_index), snp_cpuid_compare_pages(move, o),
         snp_cpuid_compare(shipped, sizeof shipped, pages.at, pages.length, o.secure_avic, o.edition));
    SAME(first, REFUSAL && E(found) && E(page) && E(entry), snp_cpuid_find_entry(pages, q),
         snp_cpuid_first_entry(pages.at, pages.length, q.leaf, q.subleaf));
    SAME(nearest_answer, REFUSAL && E(entry) && E(page) && E(register_index) && E(bit), snp_cpuid_nearest_bit(pages, o),
         snp_cpuid_nearest(pages.at, pages.length, o.secure_avic, o.edition));
}

/* Lists and lines. */
static void read_back(size_t room) {
    struct snp_cpuid_room out = {lent[0], room};
    static uint8_t kvm[SNP_CPUID_ANY_KVM_BYTES], line[SNP_CPUID_MOST_LINE_BYTES];
    struct snp_cpuid_bytes list = {kvm, snp_cpuid_table_write_kvm(ARRAYS(table), kvm, sizeof kvm).length};
    SAME(written, REFUSAL && E(length), snp_cpuid_read_kvm_pages(list, out), snp_cpuid_read_kvm(list.at, list.length, lent[1], room));
    SAME_BYTES("the pages of a list");
    struct snp_cpuid_refusal refusal = {3, 0xD, 1, 2, 0};
    SAME(line_written, E(is_line) && E(number) && E(length), snp_cpuid_write_refusal(refusal, out),
         snp_cpuid_write_line(3, 0xD, true, 2, 0, lent[1], room));
    SAME_BYTES("the line");
    struct snp_cpuid_bytes said = {line, snp_cpuid_write_line(3, 0xD, true, 2, 0, line, sizeof line).length};
    SAME(line_read, E(is_line) && REFUSAL, snp_cpuid_read_refusal(said), snp_cpuid_read_line(said.at, said.length));
}

/* What the header says of a table without rows. */
static void without_rows(struct snp_cpuid_processor p, struct snp_cpuid_query q) {
    static struct snp_cpuid_kept_table empty;
    struct snp_cpuid_state state = snp_cpuid_state_of(&empty, p);
    struct snp_cpuid_move own = {&empty, &empty}, to = {&table, &empty}, from = {&empty, &table};
    struct snp_cpuid_room out = {lent[0], ROOM};
    struct snp_cpuid_bytes none = {NULL, 0};
    made[0] = made[1] = empty;
    same(!snp_cpuid_find(&empty, q).found && !snp_cpuid_guest_find_kept(&empty, p, state, q).found, "nothing is found");
    same(state.number == 13 && snp_cpuid_guest_find(&empty, p, q).number == 13 && snp_cpuid_become_guest(&made[0], p).number == 13, "13");
    same(snp_cpuid_carry_table(&made[1], (struct snp_cpuid_editions){1, 2}, p) == 13, "carried: 13");
    same(snp_cpuid_carry_table(&made[1], (struct snp_cpuid_editions){2, 1}, p) == 16, "carried back: 16");
    struct snp_cpuid_written image = snp_cpuid_write_table_image(&empty, out), list = snp_cpuid_write_table_kvm(&empty, out);
    same(!image.number && !image.length && !list.number && list.length == 8 && !memcmp(lent[0], "\0\0\0\0\0\0\0", 8), "no bytes, and no rows");
    same(snp_cpuid_read_image_into(&made[0], none).is_image == 1 && !memcmp(&made[0], &empty, sizeof empty), "no bytes are its image");
    same(!snp_cpuid_counts_of(&empty).row_count && !snp_cpuid_counts_of(&empty).max_extended_state, "no counts");
    same(snp_cpuid_compare_tables(own).answer == SNP_CPUID_TABLE_RISES, "as itself");
    same(snp_cpuid_compare_tables(from).answer == SNP_CPUID_TABLE_BEYOND && !snp_cpuid_compare_tables(from).leaf, "to a built one");
    same(snp_cpuid_compare_tables(to).answer == SNP_CPUID_TABLE_NO_ROW && !snp_cpuid_compare_tables(to).leaf, "from a built one");
}

int main(int count, char **words) {
    FILE *in = count == 2 ? fopen(words[1], "rb") : NULL;
    if (!in || fread(shipped, 1, sizeof shipped, in) != sizeof shipped) {
        fprintf(stderr, "usage: helpers PAGES\n");
        return 1;
    }
    fclose(in);
    /* a server without FMA, bit 12 of 1.ECX */
    memcpy(poorer, shipped, sizeof shipped);
    poorer[64 + 32 + 1] &= 0xEF;
    memcpy(both, shipped, sizeof shipped);
    memcpy(both + sizeof shipped, poorer, sizeof poorer);
    snp_cpuid_table_build(shipped, sizeof shipped, true, 1, ARRAYS(table));
    snp_cpuid_table_build(poorer, sizeof poorer, true, 1, ARRAYS(other));

    struct snp_cpuid_processor processors[] = {{5, 7, 0x800, true}, {6, 3, 0, false}, {7, 0xE7, 0x1800, true}};
    struct snp_cpuid_query queries[] = {{0xD, 1, false, false}, {0xD, 0, true, false}, {1, 7, false, false}, {1, 7, false, true},
                                        {0xB, 1, false, true}};
    struct snp_cpuid_editions editions[] = {{1, 2}, {2, 1}, {1, 1}};
    for (size_t p = 0; p < 3; p++) {
        for (size_t q = 0; q < 5; q++) over_table(processors[p], queries[q]);
        for (size_t e = 0; e < 3; e++) from_table(processors[p], editions[e], e == 1 ? 100 : ROOM);
    }
    struct snp_cpuid_bytes sets[] = {{shipped, sizeof shipped}, {poorer, sizeof poorer}, {shipped, 100}, {NULL, 0}};
    struct snp_cpuid_options options[] = {{true, 1}, {false, 2}, {true, 3}};
    for (size_t set = 0; set < 4; set++)
        for (size_t o = 0; o < 3; o++) from_pages(options[o], sets[set], queries[(set + o) % 5]);
    read_back(ROOM);
    read_back(5);

    struct snp_cpuid_move away = {&table, &other}, back = {&other, &table};
#define COMPARED E(answer) && E(leaf) && E(has_subleaf) && E(subleaf) && E(register_index)
    SAME(tables_compared, COMPARED, snp_cpuid_compare_tables(away), snp_cpuid_table_compare(ARRAYS(table), ARRAYS(other)));
    SAME(tables_compared, COMPARED, snp_cpuid_compare_tables(back), snp_cpuid_table_compare(ARRAYS(other), ARRAYS(table)));
    struct snp_cpuid_tables_compared no = snp_cpuid_compare_tables(away), yes = snp_cpuid_compare_tables(back);
    same(no.answer == SNP_CPUID_TABLE_DIFFERS && no.register_index == SNP_CPUID_ECX, "a server without FMA");
    same(yes.answer == SNP_CPUID_TABLE_RISES, "a server with FMA");
    same(snp_cpuid_find(&table, queries[0]).origin == SNP_CPUID_AN_ENTRY, "the origin of D.1");
    same(snp_cpuid_find(&table, queries[4]).origin == SNP_CPUID_MADE_HERE, "the origin of B.1");
    without_rows(processors[0], queries[0]);
    SAME(counts, COUNTS, snp_cpuid_counts_of(&other), snp_cpuid_table_counts(ARRAYS(other)));
    printf("%u answers of the header's calls are the raw functions', %u are not\n", compared - different, different);
    return different != 0;
}
