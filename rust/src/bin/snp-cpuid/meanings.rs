//! What the refusals mean in general.

/// What a refusal's number means; nothing where no refusal has it.
pub fn meaning(number: u32) -> Option<&'static str> {
    MEANINGS.get((number as usize).checked_sub(1)?).copied()
}

/// The meanings of 1, 2 and so on.
const MEANINGS: [&str; 20] = [
    // 1
    "The input is no set of CPUID pages: it is empty, or its length is no multiple of 4,096. A file that was cut off, an image or a list for KVM \
     gives this. Nothing else was looked at.",
    // 2
    "The first four bytes of a page are its count of entries, and a page has room for 64. A larger count means that the page is damaged or is no \
     CPUID page. It comes after 1 and before all others that speak of entries.",
    // 3
    "24 rows need an entry: leaves 1, 5, 7.0, B.0, B.1, D.0, D.1, 80000001 to 80000008, 8000000A, 80000019, 8000001A, 8000001D.0 to .3, 8000001E \
     and 8000001F. Besides, each extended state from bit 2 up that D.0.EAX or XSS has needs its subleaf of Dh. An entry counts below its page's \
     count and, for leaf Dh, on page 1 alone. 'entries' shows what the pages have.",
    // 4
    "A guest of OpenHCL must be able to use INVLPGB, bit 3 of 80000008h.EBX, and the pages say that it cannot. The processor may be older than Zen \
     3, or the pages were captured where a hypervisor hides the bit: in a virtual machine, or from KVM's supported list. Capture them where the \
     guest's own pages are, or ask who runs the server. It is tested when no row is missing and before the extended states.",
    // 5
    "An extended state ends at its size plus its offset, EAX plus EBX of its subleaf of Dh, and for some state of D.0.EAX that passes 32 bits. No \
     processor reports this: the entry is damaged.",
    // 6
    "The flag HTT, bit 28 of 1.EDX, says whether a socket has more than one logical processor, and the counts say otherwise. Where 80000008h.ECX \
     bits 12-15 are 0, a clear flag wants bits 0-7 of 80000008h.ECX at 0 and 1.EBX bits 16-23 at 0 or 1. Where they are s from 1 to 7 the flag must \
     be set. With s from 8 on it is not looked at.",
    // 7
    "The counts of a socket's processors do not fit together. Let s be 80000008h.ECX bits 12-15. With s = 0 and HTT set, 1.EBX bits 16-23 must be \
     80000008h.ECX bits 0-7 plus 1. With s from 1 to 7, 1.EBX bits 16-23 must be exactly 2 to the power s, and 80000008h.ECX bits 0-7 plus 1 no \
     more. A dump of bare metal often has fewer processors than 2 to the power s and is refused for it: a guest's pages are made by the host, which \
     gives counts that fit. With s from 8 on nothing is compared.",
    // 8
    "8000001Eh.EBX bits 8-15 plus 1 is how many threads a core has. It must be 1 or 2, and no more than the socket has processors.",
    // 9
    "The buffer that a caller lent is shorter than what would be written to it. The command lends enough and never gives it.",
    // 10
    "A list for KVM is a count and a zero word, 8 bytes, and 40 bytes for each row that it counts. The input has another length: it was cut off, or \
     is no such list.",
    // 11
    "A page holds 64 entries, and the list has more than 64 rows of leaf Dh, or more than 64 of all others. 'from-kvm' leaves out the rows that no \
     table reads where that helps, and gives 11 only where it does not.",
    // 12
    "A row of the list for KVM has a flag other than 0 or 1 (KVM_CPUID_FLAG_SIGNIFCANT_INDEX), or a word that must be zero is not: the second of \
     the head, or one of a row's last three.",
    // 13
    "A processor cannot run with the XCR0 and XSS that were given: XCR0 must have bit 0 (x87) and no bit that D.0.EAX of the table lacks, and XSS \
     none that the table's XSS lacks, which is D.1.ECX where the table has XSAVEC and XSAVES, else 0.",
    // 14
    "The compacted save area of the XCR0 and XSS that were given, which the guest reads in D.1.EBX, would not fit 32 bits. No processor reports \
     such sizes.",
    // 15
    "The AVX rule has editions 1 and 2, of which 1 is OpenHCL's. Another number was given. It comes before all other refusals.",
    // 16
    "A table was to go from an edition of the AVX rule back to an earlier one, which would give a running guest features that it never had. Tables \
     go to a later edition, or stay.",
    // 17
    "The last eight bytes of an entry are reserved and must be zero in every entry below its page's count, whether or not a table reads it. The \
     leaf is that of the first entry where one is not. Whoever wrote the pages left old data in them.",
    // 18
    "A pool is of 2 to 16 servers, one page set each.",
    // 19
    "The servers of a pool may differ in feature bits, in extended states and in the size of the save area; all else must be equal in every row \
     that all their tables have, as the masks leave it: model and stepping, processor counts, caches, sizes of states. 'pool' names the server, leaf \
     and register.",
    // 20
    "No single bit of the pages, flipped, changes the answer. This is so where a row is missing that every guest needs: no bit of another entry \
     makes it appear.",
];

/// What a refusal says about the place where the pages were made, in a sentence or two.
pub fn place(number: u32) -> &'static str {
    match number {
        1 => "The file was cut off, or something else stands behind its pages.",
        2 => "A page is damaged: it counts more entries than it has room for.",
        3 => {
            "A list of KVM may lack the topology, leaf Bh, which the program that runs a guest adds, and a dump by an older tool the subleaves of \
             Dh. A processor before Zen 3 lacks rows of its own."
        }
        4 => {
            "A hypervisor hides INVLPGB there, as KVM does from its guests and in its list of what it supports, or the processor is older than Zen \
             3. It says where the file was made, not what the server can give a guest."
        }
        5 => "The size of a state is damaged.",
        6..=8 => {
            "A host's own dump tells the processors that are there, and its APIC numbers leave room for more; the host gives its guests counts \
             that fit, as 'from-dump --guest' does."
        }
        15 => "The edition of the AVX rule that was asked for is none.",
        17 => "Whoever wrote the pages left old data in bytes that are reserved.",
        _ => "",
    }
}

/// The same in a few words.
pub fn short(number: u32) -> &'static str {
    match number {
        1 => "cut off",
        2 => "a damaged page",
        3 => "a row is missing",
        4 => "INVLPGB is hidden",
        5 => "a damaged size",
        6..=8 => "counts of processors that no guest is given",
        15 => "no such edition",
        17 => "old data in reserved bytes",
        _ => "refused",
    }
}
