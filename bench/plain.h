/* The plain C version: the same functions with the same parameters and answers as the port's, over the same memory (include/snp_cpuid.h). bench/run
 * compiles it once for each compiler and gives the functions the compiler's name. */
#define SNP_CPUID_RAW
#include "../include/snp_cpuid.h"

typedef struct snp_cpuid_written write_image_function(const uint8_t *pages, size_t length, bool secure_avic, uint32_t edition, uint8_t *out,
                                                      size_t room);
typedef struct snp_cpuid_built build_function(const uint8_t *pages, size_t length, bool secure_avic, uint32_t edition, uint32_t *registers,
                                              uint64_t *origins);
typedef struct snp_cpuid_found find_function(const uint32_t *registers, const uint64_t *origins, uint32_t leaf, bool has_subleaf, uint32_t subleaf,
                                             bool enforce_subleaf);
typedef struct snp_cpuid_guest_found guest_find_function(const uint32_t *registers, const uint64_t *origins, uint32_t x2apic, uint64_t xcr0,
                                                         uint64_t xss, bool osxsave, uint32_t leaf, bool has_subleaf, uint32_t subleaf,
                                                         bool enforce_subleaf);
typedef struct snp_cpuid_found guest_find_kept_function(const uint32_t *registers, const uint64_t *origins, uint32_t x2apic, uint64_t xcr0,
                                                        uint64_t xss, bool osxsave, uint32_t size, uint32_t leaf, bool has_subleaf, uint32_t subleaf,
                                                        bool enforce_subleaf);

write_image_function plain_write_image;
build_function plain_table_build;
find_function plain_table_find;
guest_find_function plain_table_guest_find;
guest_find_kept_function plain_table_guest_find_kept;
