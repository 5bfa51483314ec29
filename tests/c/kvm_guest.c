/* A guest's own CPUID against the library: document 02, P3, where /dev/kvm can be opened.
 *
 *   gcc -O2 -Wall -Iinclude -o target/kvm_guest tests/c/kvm_guest.c target/staticlib/libsnp_cpuid.a
 *   target/kvm_guest tests/data/epyc-milan.pages
 *
 * A guest of three bytes in real mode, `cpuid; hlt`, runs under the list of CPUID rows that KVM supports here, with its registers set before
 * and read after each run. The rows of leaf Dh that it reads, and its 1.ECX, go into a page set whose other rows are those of the file. Then,
 * for each XCR0 within XFEM and XSS within the table's that KVM lets a processor have, and OSXSAVE off and on in CR4, the D.0.EBX, D.1.EBX and
 * 1.ECX bit 27 that the guest reads must be those of snp_cpuid_guest_lookup. The last line has the number of registers compared. Exit status 1
 * where one differs or nothing could be compared, 2 where KVM is not there.
 */
#define SNP_CPUID_RAW
#include "snp_cpuid.h"

#include <errno.h>
#include <fcntl.h>
#include <linux/kvm.h>
#include <stdio.h>
#include <stdlib.h>
#include <string.h>
#include <sys/ioctl.h>
#include <sys/mman.h>
#include <unistd.h>

enum { PAGE = 4096, ENTRY = 48, RESULT = 24, STATE = 0xD, MOST_ROWS = 256, CODE = 0x1000, EDITION = 1 };

static const uint32_t IA32_XSS = 0xDA0;
static const uint64_t OSXSAVE = 1 << 18;

struct registers {
    uint32_t eax, ebx, ecx, edx;
};

static int vcpu;
static struct kvm_run *run;
static unsigned compared, different;

static void fail(const char *what) {
    perror(what);
    exit(errno == ENOENT || errno == EACCES || errno == EPERM || errno == ENODEV ? 2 : 1);
}

static int must(int answer, const char *what) {
    if (answer < 0)
        fail(what);
    return answer;
}

/* One processor with one page of memory, and the CPUID rows that KVM supports. */
static void start(void) {
    int kvm = must(open("/dev/kvm", O_RDWR | O_CLOEXEC), "/dev/kvm");
    int vm = must(ioctl(kvm, KVM_CREATE_VM, 0), "KVM_CREATE_VM");
    uint8_t *code = mmap(NULL, PAGE, PROT_READ | PROT_WRITE, MAP_SHARED | MAP_ANONYMOUS, -1, 0);
    if (code == MAP_FAILED)
        fail("mmap");
    memcpy(code, (uint8_t[]){0x0F, 0xA2, 0xF4}, 3);
    struct kvm_userspace_memory_region memory = {.guest_phys_addr = CODE, .memory_size = PAGE, .userspace_addr = (uintptr_t)code};
    must(ioctl(vm, KVM_SET_USER_MEMORY_REGION, &memory), "KVM_SET_USER_MEMORY_REGION");
    vcpu = must(ioctl(vm, KVM_CREATE_VCPU, 0), "KVM_CREATE_VCPU");
    run = mmap(NULL, must(ioctl(kvm, KVM_GET_VCPU_MMAP_SIZE, 0), "KVM_GET_VCPU_MMAP_SIZE"), PROT_READ | PROT_WRITE, MAP_SHARED, vcpu, 0);
    if (run == MAP_FAILED)
        fail("mmap");
    struct kvm_cpuid2 *list = calloc(1, sizeof *list + MOST_ROWS * sizeof *list->entries);
    list->nent = MOST_ROWS;
    must(ioctl(kvm, KVM_GET_SUPPORTED_CPUID, list), "KVM_GET_SUPPORTED_CPUID");
    must(ioctl(vcpu, KVM_SET_CPUID2, list), "KVM_SET_CPUID2");
    free(list);
}

static void set_cr4(uint64_t cr4) {
    struct kvm_sregs system;
    must(ioctl(vcpu, KVM_GET_SREGS, &system), "KVM_GET_SREGS");
    system.cs.base = 0;
    system.cs.selector = 0;
    system.cr4 = cr4;
    must(ioctl(vcpu, KVM_SET_SREGS, &system), "KVM_SET_SREGS");
}

/* Whether KVM lets the processor have these states. */
static bool set_states(uint64_t xcr0, uint64_t xss) {
    struct kvm_xcrs xcrs = {.nr_xcrs = 1, .xcrs = {{.xcr = 0, .value = xcr0}}};
    if (ioctl(vcpu, KVM_SET_XCRS, &xcrs) < 0)
        return false;
    struct {
        struct kvm_msrs head;
        struct kvm_msr_entry entry;
    } msrs = {{.nmsrs = 1}, {.index = IA32_XSS, .data = xss}};
    return ioctl(vcpu, KVM_SET_MSRS, &msrs) == 1 || xss == 0;
}

/* CPUID as the guest executes it. */
static struct registers cpuid(uint32_t leaf, uint32_t subleaf) {
    struct kvm_regs general = {.rax = leaf, .rcx = subleaf, .rip = CODE, .rflags = 2};
    must(ioctl(vcpu, KVM_SET_REGS, &general), "KVM_SET_REGS");
    must(ioctl(vcpu, KVM_RUN, 0), "KVM_RUN");
    if (run->exit_reason != KVM_EXIT_HLT) {
        fprintf(stderr, "the guest stopped for reason %u, not at its hlt\n", run->exit_reason);
        exit(1);
    }
    must(ioctl(vcpu, KVM_GET_REGS, &general), "KVM_GET_REGS");
    return (struct registers){(uint32_t)general.rax, (uint32_t)general.rbx, (uint32_t)general.rcx, (uint32_t)general.rdx};
}

static void put(uint8_t *at, uint32_t number) {
    memcpy(at, &number, 4); /* little-endian, as this machine is */
}

static void put_entry(uint8_t *page, uint32_t leaf, uint32_t subleaf, struct registers r) {
    uint32_t count;
    memcpy(&count, page, 4);
    uint8_t *entry = page + 16 + ENTRY * count;
    put(entry, leaf);
    put(entry + 4, subleaf);
    memcpy(entry + RESULT, &r, sizeof r);
    put(page, count + 1);
}

/* The file's page 0 with the guest's 1.ECX, and a page 1 of the guest's leaf Dh. */
static void make_pages(uint8_t *pages, const char *file) {
    FILE *in = fopen(file, "rb");
    if (!in || fread(pages, 1, PAGE, in) != PAGE)
        fail(file);
    fclose(in);
    uint32_t count;
    memcpy(&count, pages, 4);
    for (uint32_t i = 0; i < count; i++)
        if (memcmp(pages + 16 + ENTRY * i, (uint32_t[]){1, 0}, 8) == 0)
            put(pages + 16 + ENTRY * i + RESULT + 8, cpuid(1, 0).ecx);
    for (uint32_t subleaf = 0; subleaf < 64; subleaf++)
        put_entry(pages + PAGE, STATE, subleaf, cpuid(STATE, subleaf));
}

static void compare(const char *name, uint64_t xcr0, uint64_t xss, bool on, uint32_t read, uint32_t ours) {
    compared++;
    if (read != ours) {
        different++;
        printf("XCR0 %llx XSS %llx OSXSAVE %d: the guest reads %s %x, the library gives %x\n", (unsigned long long)xcr0, (unsigned long long)xss,
               on, name, read, ours);
    }
}

/* What the guest of a processor in these states reads, and what the library gives it. */
static void compare_view(const uint8_t *pages, uint64_t xcr0, uint64_t xss, bool on) {
    struct snp_cpuid_built answer = snp_cpuid_guest_build(pages, 2 * PAGE, false, EDITION, 0, xcr0, xss, on);
    if (answer.number != 0) {
        different++;
        printf("XCR0 %llx XSS %llx: refused by %u\n", (unsigned long long)xcr0, (unsigned long long)xss, answer.number);
        return;
    }
    struct snp_cpuid_found one = snp_cpuid_guest_lookup(pages, 2 * PAGE, false, EDITION, 0, xcr0, xss, on, 1, false, 0, true);
    struct snp_cpuid_found state0 = snp_cpuid_guest_lookup(pages, 2 * PAGE, false, EDITION, 0, xcr0, xss, on, STATE, true, 0, true);
    struct snp_cpuid_found state1 = snp_cpuid_guest_lookup(pages, 2 * PAGE, false, EDITION, 0, xcr0, xss, on, STATE, true, 1, true);
    compare("1.ECX bit 27", xcr0, xss, on, cpuid(1, 0).ecx >> 27 & 1, one.ecx >> 27 & 1);
    compare("D.0.EBX", xcr0, xss, on, cpuid(STATE, 0).ebx, state0.ebx);
    compare("D.1.EBX", xcr0, xss, on, cpuid(STATE, 1).ebx, state1.ebx);
}

/* Every set of bits within a mask, from none up. */
static uint64_t next_within(uint64_t bits, uint64_t mask) {
    return (bits - mask) & mask;
}

int main(int count, char **words) {
    if (count != 2) {
        fprintf(stderr, "usage: kvm_guest PAGES\n");
        return 1;
    }
    start();
    set_cr4(0);
    static uint8_t pages[2 * PAGE];
    make_pages(pages, words[1]);
    struct snp_cpuid_built built = snp_cpuid_build(pages, 2 * PAGE, false, EDITION);
    if (built.number != 0) {
        printf("the guest's rows are refused by %u (leaf %x, subleaf %x)\n", built.number, built.leaf, built.subleaf);
        return 1;
    }
    uint64_t xfem = snp_cpuid_lookup(pages, 2 * PAGE, false, EDITION, STATE, true, 0, true).eax;
    uint64_t max_xss = snp_cpuid_lookup(pages, 2 * PAGE, false, EDITION, STATE, true, 1, true).ecx;
    unsigned states = 0, beyond = 0;
    uint64_t xcr0 = 0;
    do {
        uint64_t xss = 0;
        do {
            if (!set_states(xcr0, xss)) {
                beyond++;
                continue;
            }
            states++;
            for (int on = 0; on < 2; on++) {
                set_cr4(on ? OSXSAVE : 0);
                compare_view(pages, xcr0, xss, on);
            }
        } while ((xss = next_within(xss, max_xss)) != 0);
    } while ((xcr0 = next_within(xcr0, xfem)) != 0);
    printf("XFEM %llx, XSS %llx: %u states of XCR0 and XSS, %u that KVM does not let a processor have\n", (unsigned long long)xfem,
           (unsigned long long)max_xss, states, beyond);
    printf("%u registers that a guest reads are those of its view, %u differ\n", compared, different);
    return compared == 0 || different != 0;
}
