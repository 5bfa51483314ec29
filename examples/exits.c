/* Builds a table of CPUID pages once, answers some CPUID exits of a guest from it, and takes it to edition 2 of the AVX rule.
 *
 *   cc exits.c $(pkg-config --cflags --libs snp_cpuid) -o exits
 *   ./exits pages
 */
#include <inttypes.h>
#include <snp_cpuid.h>
#include <stdio.h>

int main(int count, char **words) {
    static uint8_t pages[16 * 4096];
    static struct snp_cpuid_kept_table table;
    FILE *file = count == 2 ? fopen(words[1], "rb") : NULL;
    if (!file) {
        fprintf(stderr, "usage: exits PAGES\n");
        return 2;
    }
    struct snp_cpuid_bytes read = {pages, fread(pages, 1, sizeof pages, file)};
    fclose(file);

    struct snp_cpuid_options options = {.secure_avic = false, .edition = 1};
    struct snp_cpuid_built built = snp_cpuid_build_into(&table, read, options);
    printf("%s, %" PRIu64 " rows\n", snp_cpuid_words(built.number), built.row_count);
    if (built.number) return 1;

    /* when the guest writes XCR0 or XSS: may it have the state? */
    struct snp_cpuid_processor processor = {.x2apic = 5, .xcr0 = 7, .xss = 0, .osxsave = true};
    struct snp_cpuid_state state = snp_cpuid_state_of(&table, processor);

    /* at each exit: leaf and subleaf, as the guest has them in EAX and ECX; what is not found is answered by zeros */
    const struct snp_cpuid_query exits[] = {{.leaf = 0}, {.leaf = 1}, {.leaf = 0xB, .subleaf = 1}, {.leaf = 0xD}, {.leaf = 0xD, .subleaf = 1},
                                            {.leaf = 0x80000001, .subleaf = 7}, {.leaf = 0x40000000}};
    for (size_t i = 0; i < sizeof exits / sizeof *exits; i++) {
        struct snp_cpuid_found row = {0};
        if (!state.number) row = snp_cpuid_guest_find_kept(&table, processor, state, exits[i]);
        printf("%08" PRIX32 ".%" PRIu32 " %08" PRIX32 " %08" PRIX32 " %08" PRIX32 " %08" PRIX32 " %s\n", exits[i].leaf, exits[i].subleaf, row.eax,
               row.ebx, row.ecx, row.edx, snp_cpuid_words(state.number));
    }

    struct snp_cpuid_editions editions = {.from = 1, .to = 2};
    uint32_t number = snp_cpuid_carry_table(&table, editions, processor);
    printf("edition 2: %s, 1.ECX %08" PRIX32 "\n", snp_cpuid_words(number), snp_cpuid_find(&table, exits[1]).ecx);
    return number != 0;
}
