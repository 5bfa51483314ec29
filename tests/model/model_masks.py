"""The leaves of document 01. The masks of "Corners of masking.rs": the names that masking.rs and snp.rs keep, in their
order, each under its short name in cpuid-bits.csv and at the place given there; and the leaves that building asks for."""
import cpuid_csv

ALL = 0xFFFFFFFF
WHOLE = (ALL, ALL, ALL, ALL)

LINES = cpuid_csv.load()

# kept, but without a line in cpuid-bits.csv: AMD64 APM volume 3, Fn8000_0001_EAX (a copy of Fn0000_0001_EAX),
# Fn8000_0001_EDX and Fn8000_001F_EAX
PROCESSOR_TYPE = 0b11 << 12
MMX = 1 << 23
SECURE_AVIC = 1 << 26


def bits(leaf, subleaf, register, names):
    """The mask of the named bits and fields of one register."""
    places = {line.name: line.bits for line in cpuid_csv.register_lines(LINES, leaf, subleaf, register)}
    mask = 0
    for name in names.split():
        low, high = places[name]
        mask |= (2 << high) - (1 << low)
    return mask


def version_and_features():
    return (bits(1, None, 'EAX', 'stepping base_model base_family_id cpu_type ext_model ext_family'),
            bits(1, None, 'EBX', 'brand_id clflush_size n_logical_cpu local_apic_id'),
            bits(1, None, 'ECX', 'pni pclmulqdq ssse3 fma cx16 pcid sse4_1 sse4_2 movbe popcnt aes xsave osxsave avx '
                                 'f16c rdrand'),
            bits(1, None, 'EDX', 'fpu vme de pse tsc msr pae mce cx8 apic sep mtrr pge mca cmov pat pse36 clflush mmx '
                                 'fxsr sse sse2 ht'))


def extended_features():
    return (ALL,
            bits(7, 0, 'EBX', 'fsgsbase bmi1 avx2 smep bmi2 erms invpcid zero_fcs_fds avx512f avx512dq rdseed adx smap '
                              'avx512ifma clflushopt clwb avx512cd sha_ni avx512bw avx512vl'),
            bits(7, 0, 'ECX', 'avx512vbmi umip waitpkg avx512_vbmi2 cet_ss gfni vaes vpclmulqdq avx512_vnni '
                              'avx512_bitalg avx512_vpopcntdq rdpid cldemote movdiri movdir64b'),
            bits(7, 0, 'EDX', 'fsrm avx512_vp2intersect serialize avx512_fp16'))


def extended_state(subleaf):
    if subleaf == 0:
        return (bits(0xD, 0, 'EAX', 'xcr0_x87 xcr0_sse xcr0_avx xcr0_avx512_opmask xcr0_avx512_zmm_hi256 '
                                    'xcr0_avx512_hi16_zmm'), ALL, ALL, 0)
    if subleaf == 1:
        return (bits(0xD, 1, 'EAX', 'xsaveopt xsavec xsaves'), ALL, bits(0xD, 1, 'ECX', 'xss_cet_u xss_cet_p'), 0)
    return WHOLE


def extended_version_and_features():
    leaf = 0x80000001
    return (bits(leaf, None, 'EAX', 'e_stepping_id e_base_model e_base_family e_ext_model e_ext_family')
            | PROCESSOR_TYPE,
            bits(leaf, None, 'EBX', 'brand_id pkg_type'),
            bits(leaf, None, 'ECX', 'lahf_lm cmp_legacy cr8_legacy abm sse4a misalignsse 3dnowprefetch ibs xop fma4 '
                                    'topoext'),
            bits(leaf, None, 'EDX', 'e_fpu e_vme e_de e_pse e_tsc e_msr pae mce cx8 apic syscall mtrr pge mca cmov pat '
                                    'pse36 nx mmxext e_fxsr pdpe1gb rdtscp lm 3dnowext 3dnow')
            | MMX | bits(leaf, None, 'EDX', 'fxsr_opt'))


def extended_address_space_sizes():
    leaf = 0x80000008
    return (bits(leaf, None, 'EAX', 'phys_addr_bits virt_addr_bits'),
            bits(leaf, None, 'EBX', 'clzero irperf xsaveerptr invlpgb rdpru wbnoinvd amd_ibpb amd_ibrs amd_stibp '
                                    'amd_ssbd amd_stibp_always_on no_efer_lmsle amd_psfd btc_no'),
            bits(leaf, None, 'ECX', 'cpu_nthreads apicid_coreid_len'),
            bits(leaf, None, 'EDX', 'invlpgb_max_pages rdpru_max_reg_id'))


def extended_sev_features(secure_avic):
    leaf = 0x8000001F
    return (bits(leaf, None, 'EAX', 'sme sev vm_page_flush sev_es sev_nested_paging vm_permission_levels rpmquery '
                                    'v_tsc_aux') | (SECURE_AVIC if secure_avic else 0),
            bits(leaf, None, 'EBX', 'pte_cbit_pos phys_addr_reduction_nbits vmpl_count'), ALL, ALL)


def kept(secure_avic):
    """{(leaf, subleaf or None): four masks} of everything that is kept; all else is filtered."""
    masks = {(leaf, None): WHOLE for leaf in (5, *range(0x80000002, 0x80000008))}
    masks |= {(0xB, subleaf): WHOLE for subleaf in range(2)}
    masks |= {(0xD, subleaf): extended_state(subleaf) for subleaf in range(64)}
    masks |= {(0x8000001D, subleaf): WHOLE for subleaf in range(4)}
    return masks | {
        (1, None): version_and_features(),
        (7, 0): extended_features(),
        (0x80000001, None): extended_version_and_features(),
        (0x80000008, None): extended_address_space_sizes(),
        (0x8000000A, None): (bits(0x8000000A, None, 'EAX', 'svm_version'), 0, 0, 0),
        (0x80000019, None): (ALL, ALL, 0, 0),
        (0x8000001A, None): (bits(0x8000001A, None, 'EAX', 'fp_128 movu_preferred fp_256'), 0, 0, 0),
        (0x8000001E, None): (ALL, ALL, ALL, 0),
        (0x8000001F, None): extended_sev_features(secure_avic),
    }


KEPT = {choice: kept(choice) for choice in (False, True)}

# refusal 3 names the first of these that has no row
COMMON_REQUIRED_LEAVES = [
    (1, None), (5, None), (7, 0), (0xB, 0), (0xB, 1), (0x80000001, None), (0x80000005, None), (0x80000006, None),
    (0x80000007, None), (0x80000008, None), (0x80000002, None), (0x80000003, None), (0x80000004, None), (0xD, 0),
    (0xD, 1)]
SNP_REQUIRED_LEAVES = [
    (0x8000001F, None), (0x8000000A, None), (0x80000019, None), (0x8000001A, None), (0x8000001D, 0), (0x8000001D, 1),
    (0x8000001D, 2), (0x8000001D, 3), (0x8000001E, None)]
