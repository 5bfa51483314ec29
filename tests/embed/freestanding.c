/* A program without a C library: its own start, memcpy and memset, and three system calls. It writes the image of the pages on standard input to
 * standard output, or why there is none to standard error. As C++ it is the same program; HOSTED leaves out what a C library has. */
#include <snp_cpuid.h>

/* read, write and exit are 0, 1 and 60 */
static long call_system(long number, long first, const void *second, long third) {
    long answer;
    __asm__ volatile("syscall" : "=a"(answer) : "a"(number), "D"(first), "S"(second), "d"(third) : "rcx", "r11", "memory");
    return answer;
}

static int image_of_input(void) {
    static uint8_t bytes[2 * 4096], image[SNP_CPUID_MOST_IMAGE_BYTES];
    static struct snp_cpuid_kept_table table;
    long length = call_system(0, 0, bytes, sizeof bytes);
    struct snp_cpuid_bytes pages = {bytes, length < 0 ? 0 : (size_t)length};
    struct snp_cpuid_options options = {false, 1};
    struct snp_cpuid_built built = snp_cpuid_build_into(&table, pages, options);
    if (built.number) {
        struct snp_cpuid_refusal refusal = {built.number, built.leaf, built.has_subleaf, built.subleaf, built.s};
        char message[SNP_CPUID_MOST_MESSAGE_BYTES];
        call_system(1, 2, message, (long)snp_cpuid_message(refusal, message, sizeof message));
        return (int)built.number;
    }
    struct snp_cpuid_room out = {image, sizeof image};
    struct snp_cpuid_written written = snp_cpuid_write_table_image(&table, out);
    return call_system(1, 1, image, (long)written.length) == (long)written.length ? 0 : 100;
}

#ifdef HOSTED
int main(void) {
    return image_of_input();
}
#else
#ifdef __cplusplus
extern "C" {
#endif
void *memcpy(void *to, const void *from, size_t count) {
    void *start = to;
    __asm__ volatile("rep movsb" : "+D"(to), "+S"(from), "+c"(count) : : "memory");
    return start;
}

void *memset(void *to, int byte, size_t count) {
    void *start = to;
    __asm__ volatile("rep stosb" : "+D"(to), "+c"(count) : "a"(byte) : "memory");
    return start;
}

__attribute__((used)) void begin(void) {
    call_system(60, image_of_input(), 0, 0);
}
#ifdef __cplusplus
}
#endif
/* the stack is aligned to 16 where the kernel starts a program */
__asm__(".globl _start\n_start:\n    xor %ebp, %ebp\n    call begin\n");
#endif
