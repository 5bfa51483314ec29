/* A running table carried from one edition of the AVX rule to another by a caller in C: document 02, P8.
 *
 *   gcc -std=c11 -O2 -Wall -Wextra -Werror -Iinclude -o target/carry tests/c/carry.c target/staticlib/libsnp_cpuid.a
 *   target/carry tests/data/epyc-milan.pages
 *
 * The pages of the file, with D.0.EAX as a server without YMM state reports it, give a table under edition 1. Carried to edition 2 it is the image
 * that edition 2 gives of the pages, and the guest's two save sizes are the same before and after. Every answer is asked for, and each time the bytes
 * beyond the image, and where the answer is a refusal those of the image, must be as they were. The last line has the number of things compared. Exit
 * status 1 where one is not as it must be.
 */
#define SNP_CPUID_RAW
#include "snp_cpuid.h"

#include <stdio.h>
#include <stdlib.h>
#include <string.h>
#include "same.h"

enum { PAGE = 4096, STATE_EAX = PAGE + 16 + 24, SUBLEAF_2_EAX = STATE_EAX + 2 * 48, ROOM = SNP_CPUID_MOST_IMAGE_BYTES + 16, FILL = 0xA5 };

static uint8_t pages[2 * PAGE];

/* The image of the pages under an edition, in a buffer whose other bytes are FILL. */
static size_t image_of(uint32_t edition, uint8_t *image) {
    memset(image, FILL, ROOM);
    struct snp_cpuid_written written = snp_cpuid_write_image(pages, sizeof pages, false, edition, image, ROOM);
    same(written.number == 0, "the pages are accepted");
    return written.length;
}

/* Carries the image of the pages under edition 1, of which `more` bytes follow; what the answer and the bytes must be. */
static void carries(const char *what, uint32_t from, uint32_t to, uint64_t xcr0, size_t more, uint32_t is_image, uint32_t number,
                    const uint8_t *wanted) {
    uint8_t image[ROOM];
    size_t length = image_of(1, image);
    struct snp_cpuid_carried carried = snp_cpuid_carry(image, length + more, from, to, xcr0, 0x800);
    same(carried.is_image == is_image && carried.number == number, what);
    same(memcmp(image, wanted, ROOM) == 0, what);
}

static void put_eax(size_t at, uint32_t eax) {
    memcpy(pages + at, &eax, 4); /* little-endian, as this machine is */
}

static void save_sizes(uint32_t edition, uint32_t *sizes) {
    for (uint32_t subleaf = 0; subleaf < 2; subleaf++)
        sizes[subleaf] = snp_cpuid_guest_lookup(pages, sizeof pages, false, edition, 5, 3, 0x800, true, 0xD, true, subleaf, true).ebx;
}

int main(int count, char **words) {
    FILE *in = count == 2 ? fopen(words[1], "rb") : NULL;
    if (!in || fread(pages, 1, sizeof pages, in) != sizeof pages) {
        fprintf(stderr, "usage: carry PAGES, two pages whose second begins with D.0, D.1 and D.2\n");
        return 1;
    }
    fclose(in);
    put_eax(STATE_EAX, 3);
    uint8_t first[ROOM], second[ROOM];
    same(image_of(1, first) == image_of(2, second) && memcmp(first, second, ROOM) != 0, "the editions differ");
    carries("1 to 2", 1, 2, 3, 0, 1, 0, second);
    carries("within edition 1", 1, 1, 3, 0, 1, 0, first);
    carries("within edition 2", 2, 2, 3, 0, 1, 0, first);
    carries("16", 2, 1, 3, 0, 1, 16, first);
    carries("16 before 13", 2, 1, 0, 0, 1, 16, first);
    carries("15 for the edition that it is under", 0, 1, 3, 0, 1, 15, first);
    carries("15 for the edition wanted, before 13", 2, 3, 0, 0, 1, 15, first);
    carries("13", 1, 2, 7, 0, 1, 13, first);
    carries("13 above 32 bits", 1, 2, (uint64_t)1 << 32 | 3, 0, 1, 13, first);
    carries("a byte more is no image", 1, 2, 3, 1, 0, 0, first);
    carries("no image before 15", 0, 3, 0, 1, 0, 0, first);

    struct snp_cpuid_carried empty = snp_cpuid_carry(NULL, 0, 1, 2, 1, 0);
    same(empty.is_image == 1 && empty.number == 13, "no bytes are the image of a table without rows");
    uint32_t before[2], after[2];
    save_sizes(1, before);
    save_sizes(2, after);
    same(before[0] != 0 && before[1] != 0 && memcmp(before, after, sizeof before) == 0, "the guest's save sizes");

    put_eax(STATE_EAX, 7);
    put_eax(SUBLEAF_2_EAX, UINT32_MAX - 576);
    image_of(1, first);
    carries("14", 1, 2, 7, 0, 1, 14, first);
    carries("14 within one edition", 1, 1, 7, 0, 1, 14, first);
    carries("no 14 without the state", 1, 2, 3, 0, 1, 0, first);
    printf("%u answers, bytes and sizes are as they must be, %u are not\n", compared - different, different);
    return different != 0;
}
