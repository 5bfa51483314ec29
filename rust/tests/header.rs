//! The constants of the crate are those of include/snp_cpuid.h. Declarations are made from one source, which tests/gate/interface.py holds.

#[test]
fn the_constants_are_the_headers() {
    let text = std::fs::read_to_string("../include/snp_cpuid.h").expect("the header");
    for (name, value) in [
        ("MOST_IMAGE", snp_cpuid::MOST_IMAGE_BYTES),
        ("MOST_KVM", snp_cpuid::MOST_KVM_BYTES),
        ("KVM_PAGES", snp_cpuid::KVM_PAGES_BYTES),
        ("ANY_IMAGE", snp_cpuid::ANY_IMAGE_BYTES),
        ("ANY_KVM", snp_cpuid::ANY_KVM_BYTES),
        ("MOST_LINE", snp_cpuid::MOST_LINE_BYTES),
        ("TOPOLOGIES", snp_cpuid::TOPOLOGIES_BYTES),
        ("FINGERPRINT", snp_cpuid::FINGERPRINT_BYTES),
    ] {
        let line = text.lines().find_map(|l| l.strip_prefix(&format!("#define SNP_CPUID_{name}_BYTES "))).expect("the constant");
        assert_eq!(line.trim().parse(), Ok(value));
    }
}
