/* A table's list through the kernel's own header: sizes, offsets and the flag's value; every field of every row against lookups. Where
 * /dev/kvm can be opened, a new vCPU takes the list and gives the same functions, indices and flags back in the same order; the list of
 * KVM_GET_SUPPORTED_CPUID is read into pages, or refused where document 02 says so, as some processors have more rows than pages hold; and
 * the first rows of it that can be read are written to a file, for from-kvm.
 *
 *   kvm_header PAGES SUPPORTED     the last line says what was compared; status 0 where all is equal, 3 where /dev/kvm cannot be opened
 */
#include <fcntl.h>
#include <linux/kvm.h>
#include <stdio.h>
#include <stdlib.h>
#include <string.h>
#include <sys/ioctl.h>

#define SNP_CPUID_RAW
#include "snp_cpuid.h"

_Static_assert(sizeof(struct kvm_cpuid2) == 8, "the head");
_Static_assert(offsetof(struct kvm_cpuid2, nent) == 0, "the count");
_Static_assert(offsetof(struct kvm_cpuid2, padding) == 4, "the zero word");
_Static_assert(offsetof(struct kvm_cpuid2, entries) == 8, "the rows");
_Static_assert(sizeof(struct kvm_cpuid_entry2) == 40, "a row");
_Static_assert(offsetof(struct kvm_cpuid_entry2, function) == 0, "function");
_Static_assert(offsetof(struct kvm_cpuid_entry2, index) == 4, "index");
_Static_assert(offsetof(struct kvm_cpuid_entry2, flags) == 8, "flags");
_Static_assert(offsetof(struct kvm_cpuid_entry2, eax) == 12, "EAX");
_Static_assert(offsetof(struct kvm_cpuid_entry2, ebx) == 16, "EBX");
_Static_assert(offsetof(struct kvm_cpuid_entry2, ecx) == 20, "ECX");
_Static_assert(offsetof(struct kvm_cpuid_entry2, edx) == 24, "EDX");
_Static_assert(offsetof(struct kvm_cpuid_entry2, padding) == 28, "padding");
_Static_assert(KVM_CPUID_FLAG_SIGNIFCANT_INDEX == 1, "the flag of a row with a subleaf");

enum { ROOM = 256, PAGE_ROWS = 64 };

static _Alignas(struct kvm_cpuid2) uint8_t list[8 + 40 * ROOM], given[8 + 40 * ROOM];

static void check(int holds, const char *what) {
    if (!holds) {
        printf("%s\n", what);
        exit(1);
    }
}

/* Every field of the list against the library's own lookups; gives the number of rows. */
static uint32_t rows_against_lookups(const uint8_t *pages, size_t length, bool avic, uint32_t edition) {
    memset(list, 0xA5, sizeof list);
    struct snp_cpuid_built built = snp_cpuid_build(pages, length, avic, edition);
    struct snp_cpuid_written written = snp_cpuid_write_kvm(pages, length, avic, edition, list, sizeof list);
    const struct kvm_cpuid2 *cpuid = (const struct kvm_cpuid2 *)list;
    check(built.number == 0 && written.number == 0, "the pages are refused");
    check(cpuid->nent == built.row_count && cpuid->padding == 0, "the head");
    check(written.length == sizeof *cpuid + cpuid->nent * sizeof cpuid->entries[0], "the length");
    for (uint32_t i = 0; i < cpuid->nent; i++) {
        struct kvm_cpuid_entry2 row = cpuid->entries[i];
        bool indexed = row.flags == KVM_CPUID_FLAG_SIGNIFCANT_INDEX;
        struct snp_cpuid_found found = snp_cpuid_lookup(pages, length, avic, edition, row.function, indexed, row.index, true);
        check(indexed || (row.flags == 0 && row.index == 0), "flags or index of a row");
        check(found.found && found.eax == row.eax && found.ebx == row.ebx && found.ecx == row.ecx && found.edx == row.edx, "registers of a row");
        check(!row.padding[0] && !row.padding[1] && !row.padding[2], "padding of a row");
        if (i > 0) {
            struct kvm_cpuid_entry2 last = cpuid->entries[i - 1];
            check(last.function < row.function || (last.function == row.function && last.index < row.index), "the order of rows");
        }
    }
    check(list[written.length] == 0xA5, "a byte beyond the list");
    return cpuid->nent;
}

/* A new vCPU takes the list and gives it back; the kernel may change registers that it owns. */
static void given_to_kvm(int kvm) {
    int vm = ioctl(kvm, KVM_CREATE_VM, 0);
    int vcpu = vm < 0 ? -1 : ioctl(vm, KVM_CREATE_VCPU, 0);
    struct kvm_cpuid2 *cpuid = (struct kvm_cpuid2 *)list, *back = (struct kvm_cpuid2 *)given;
    check(vcpu >= 0, "KVM_CREATE_VCPU");
    check(ioctl(vcpu, KVM_SET_CPUID2, cpuid) == 0, "KVM_SET_CPUID2 does not take the list");
    back->nent = ROOM;
    check(ioctl(vcpu, KVM_GET_CPUID2, back) == 0, "KVM_GET_CPUID2");
    check(back->nent == cpuid->nent, "KVM_GET_CPUID2 gives another number of rows");
    for (uint32_t i = 0; i < cpuid->nent; i++) {
        struct kvm_cpuid_entry2 a = cpuid->entries[i], b = back->entries[i];
        check(a.function == b.function && a.index == b.index && a.flags == b.flags, "KVM_GET_CPUID2 gives another row");
    }
}

/* Whether a row goes onto page 1. */
static int on_page_1(const struct kvm_cpuid_entry2 *row) { return row->function == 0xD; }

/* What reading a list of lawful length must give, by document 02, P2: 12, then 11, or 0. */
static uint32_t number_by_document_02(const struct kvm_cpuid2 *cpuid) {
    uint32_t unlawful = cpuid->padding, rows[2] = {0, 0};
    for (uint32_t i = 0; i < cpuid->nent; i++) {
        const struct kvm_cpuid_entry2 *row = &cpuid->entries[i];
        unlawful |= (row->flags > 1) | row->padding[0] | row->padding[1] | row->padding[2];
        rows[on_page_1(row)]++;
    }
    return unlawful ? 12 : rows[0] > PAGE_ROWS || rows[1] > PAGE_ROWS ? 11 : 0;
}

static size_t bytes_of(const struct kvm_cpuid2 *cpuid) { return sizeof *cpuid + cpuid->nent * sizeof cpuid->entries[0]; }

/* Reads the list, and holds the answer and the lent bytes against document 02; gives the answer's number. */
static uint32_t read_into_pages(const struct kvm_cpuid2 *cpuid) {
    static uint8_t pages[8192 + 1];
    memset(pages, 0xA5, sizeof pages);
    struct snp_cpuid_written read = snp_cpuid_read_kvm((const uint8_t *)cpuid, bytes_of(cpuid), pages, sizeof pages);
    size_t written = read.number == 0 ? 8192 : 0;
    check(read.number == number_by_document_02(cpuid) && read.length == written, "reading the list of KVM_GET_SUPPORTED_CPUID");
    for (size_t i = written; i < sizeof pages; i++) check(pages[i] == 0xA5, "a byte beyond the pages");
    return read.number;
}

/* The list without rows of other flags (older kernels have one) and those beyond a page's 64th, so that what is left can be read. */
static void keep_what_is_read(struct kvm_cpuid2 *cpuid) {
    uint32_t kept = 0, rows[2] = {0, 0};
    for (uint32_t i = 0; i < cpuid->nent; i++) {
        struct kvm_cpuid_entry2 row = cpuid->entries[i];
        if (row.flags <= 1 && rows[on_page_1(&row)]++ < PAGE_ROWS) cpuid->entries[kept++] = row;
    }
    cpuid->nent = kept;
}

/* Says on the way how many rows the kernel gives and what reading them comes to. */
static void supported_to_file(int kvm, const char *name) {
    struct kvm_cpuid2 *cpuid = (struct kvm_cpuid2 *)given;
    memset(given, 0, sizeof given);
    cpuid->nent = ROOM;
    check(ioctl(kvm, KVM_GET_SUPPORTED_CPUID, cpuid) == 0, "KVM_GET_SUPPORTED_CPUID");
    uint32_t number = read_into_pages(cpuid);
    printf(", KVM_GET_SUPPORTED_CPUID gives %u rows, ", cpuid->nent);
    number ? printf("refused by %u\n", number) : printf("which are read\n");
    /* the command takes more rows than pages hold, as long as those that a table reads fit, and no other flags */
    if (number == 12) keep_what_is_read(cpuid);
    FILE *file = fopen(name, "wb");
    size_t size = bytes_of(cpuid);
    check(file && fwrite(given, 1, size, file) == size && fclose(file) == 0, "the list of KVM_GET_SUPPORTED_CPUID cannot be written");
    if (number == 11) keep_what_is_read(cpuid);
    check(read_into_pages(cpuid) == 0, "a list whose rows fit is refused");
}

int main(int argc, char **argv) {
    static uint8_t pages[1 << 16];
    check(argc == 3, "kvm_header PAGES SUPPORTED");
    FILE *file = fopen(argv[1], "rb");
    check(file != NULL, "the pages cannot be opened");
    size_t length = fread(pages, 1, sizeof pages, file);
    uint32_t rows = rows_against_lookups(pages, length, true, 2);
    check(rows == rows_against_lookups(pages, length, false, 1), "another number of rows under other choices");
    int kvm = open("/dev/kvm", O_RDWR);
    if (kvm < 0) {
        printf("%u rows are as <linux/kvm.h> has them; /dev/kvm cannot be opened\n", rows);
        return 3;
    }
    given_to_kvm(kvm);
    printf("%u rows are as <linux/kvm.h> has them, KVM_SET_CPUID2 takes them", rows);
    supported_to_file(kvm, argv[2]);
    return 0;
}
