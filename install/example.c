/* Reads CPUID pages from a file and prints what the guest's table has in leaf 8000001Fh, or why there is no table.
 *
 *   cc example.c $(pkg-config --cflags --libs snp_cpuid) -o example
 *   ./example pages
 */
#include <inttypes.h>
#include <snp_cpuid.h>
#include <stdio.h>

int main(int count, char **words) {
    static uint8_t pages[16 * 4096];
    static struct snp_cpuid_kept_table table;
    FILE *file = count == 2 ? fopen(words[1], "rb") : NULL;
    if (!file) {
        fprintf(stderr, "usage: example PAGES\n");
        return 2;
    }
    struct snp_cpuid_bytes read = {pages, fread(pages, 1, sizeof pages, file)};
    fclose(file);
    struct snp_cpuid_options options = {.secure_avic = false, .edition = 1};
    struct snp_cpuid_built built = snp_cpuid_build_into(&table, read, options);
    if (built.number) {
        printf("refusal %" PRIu32 "\n", built.number);
        return 1;
    }
    struct snp_cpuid_query query = {.leaf = 0x8000001F};
    printf("%" PRIu64 " rows, 8000001F.EAX %08" PRIX32 "\n", built.row_count, snp_cpuid_find(&table, query).eax);
    return 0;
}
