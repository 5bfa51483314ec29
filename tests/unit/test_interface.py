"""Tests of interface.py on a copy of the sources that it reads: a new export needs --write alone, and what has no form for C is told."""
from contextlib import redirect_stdout
from io import StringIO
from pathlib import Path
import shutil
import tempfile
import unittest

import interface

MADE = ('include/snp_cpuid.h', 'rust/src/exports.rs', 'rust/src/refusal_list.rs', 'tests/c/layout.h', 'docs/EMBEDDING.md', 'rust/src/refusal.rs',
        'rust/src/bin/snp-cpuid/meanings.rs', 'tests/data/messages.txt', 'rust/src/kvm.rs', 'rust/src/carry.rs', 'rust/src/nearest.rs')
SOURCES = 'crates/snp_cpuid_c/src', 'crates/answers/src', 'crates/table/src', 'crates/memory/src', 'crates/masking/src'
NEW = '''
// What a digest gives.
#[repr(C)]
#[derive(Clone, Copy)]
pub struct SnpCpuidDigest {
    pub number: u32,
    pub length: u64,
}
'''
EXPORT = '''
// Builds, and writes the digest of the table.
#[unsafe(no_mangle)]
pub extern "C" fn snp_cpuid_digest(pages: &[u8], secure_avic: bool, edition: u32, out: &mut [u8; 32]) -> SnpCpuidDigest
    ensures { result ≡ result }
{
}
'''


class Made(unittest.TestCase):
    def setUp(self):
        folder = tempfile.TemporaryDirectory()
        self.addCleanup(folder.cleanup)
        self.root = Path(folder.name)
        for path in SOURCES:
            shutil.copytree(interface.ROOT / path, self.root / path)
        for path in *MADE, 'include/refusals.txt', 'rust/src/pool.rs':
            (self.root / path).parent.mkdir(parents=True, exist_ok=True)
            shutil.copy(interface.ROOT / path, self.root / path)

    def asked(self, word):
        with redirect_stdout(StringIO()) as said:
            return interface.main([word], self.root), said.getvalue()

    def edit(self, path, old, new):
        text = (self.root / path).read_text()
        self.assertIn(old, text)
        (self.root / path).write_text(text.replace(old, new, 1))

    def text(self, path):
        return (self.root / path).read_text()

    def symbol(self):
        return interface.Interface(self.root).symbol()

    def test_the_repository_is_as_made(self):
        self.assertEqual(self.asked('--check')[0], 0)

    def test_a_new_export_needs_no_hand(self):
        before = self.symbol()
        self.edit('crates/answers/src/line.rt', '// A line\'s answer in writing', NEW + '\n// A line\'s answer in writing')
        self.edit('crates/snp_cpuid_c/src/nearest_exports.rt', '// The first result bit', EXPORT + '\n// The first result bit')
        status, said = self.asked('--check')
        self.assertEqual(status, 1)
        for path in MADE[0], MADE[1], MADE[3]:
            self.assertIn(f'{path} is not as made', said)
        self.assertEqual((self.asked('--write')[0], self.asked('--check')[0]), (0, 0))
        header, rust = self.text(MADE[0]), self.text(MADE[1])
        self.assertIn('struct snp_cpuid_digest_answer snp_cpuid_digest(const uint8_t *pages, size_t length, bool secure_avic, uint32_t edition, '
                      'uint8_t *out);', header)
        # the struct, whose name in C++ would be the function's
        self.assertIn('/* What a digest gives. */\nstruct snp_cpuid_digest_answer {\n    uint32_t number;\n    uint64_t length;\n};\n', header)
        self.assertIn('#pragma GCC poison snp_cpuid_digest\n', header)
        self.assertIn('pub fn snp_cpuid_digest(pages: *const u8, length: usize, secure_avic: bool, edition: u32, out: *mut u8) -> Digest;', rust)
        self.assertIn('AT(digest_answer, length, 8);\nBYTES(digest_answer, 16);\n', self.text(MADE[3]))
        self.assertNotEqual(self.symbol(), before)
        self.assertIn(f'#define SNP_CPUID_INTERFACE {self.symbol()}\n', header)

    def test_a_field_that_is_gone_or_moved_is_seen(self):
        before = self.symbol()
        self.edit('crates/answers/src/lib.rt', '    pub number: u32,\n    pub size: u32,\n', '    pub size: u32,\n    pub number: u32,\n')
        self.assertEqual(self.asked('--check')[0], 1)
        self.asked('--write')
        self.assertIn('struct snp_cpuid_state {\n    uint32_t size;\n    uint32_t number;\n};\n', self.text(MADE[0]))
        self.assertNotEqual(self.symbol(), before)

    def test_comments_of_fields_stay_and_those_of_the_source_do_not_count(self):
        before = self.symbol()
        self.edit('crates/answers/src/lib.rt', '// How many rows a table has', '// How very many rows a table has')
        self.assertEqual(self.symbol(), before)
        self.edit('crates/answers/src/lib.rt', '    pub max_extended_state: u64,\n', '    pub mask: u64,\n')
        self.asked('--write')
        self.assertIn('    uint64_t row_count;          /* 26 to 32 of a table that was built from pages */\n', self.text(MADE[0]))

    def test_what_was_edited_by_hand_is_seen(self):
        for path, old in ((MADE[0], 'uint64_t page;'), (MADE[0], 'SNP_CPUID_PAGE_COUNT = 2'), (MADE[1], 'pub leaf: u32'), (MADE[2], 'number: 7,'),
                          (MADE[3], 'AT(built'), (MADE[4], '`SNP_CPUID_LIST_FIELDS`'), (MADE[5], '/// 12: a flag'), (MADE[5], '(12, none'),
                          (MADE[6], '// 12'), (MADE[7], 'the list for KVM has'), (MADE[8], '[`Refusal::ListFields`], ')):
            whole = self.text(path)
            self.edit(path, old, old[:-1])
            self.assertEqual(self.asked('--check')[0], 1, path)
            (self.root / path).write_text(whole)

    def test_refusals_are_those_of_the_proved_numbers(self):
        for old, new in (('12 ListFields', '12 ListWords'), ('12 ListFields', '21 ListFields'), ('    means INVLPGB is unavailable\n', ''),
                         ('    says the AVX rule has', '    tells the AVX rule has'),
                         ('says no entry for leaf %lh subleaf', 'says if s 3: no entry for leaf'), ('    with 0, D, 4', '    with 0 1, D, 4'),
                         ('    with 0, 1, 7, 10, 15, 255\n', ''), ('    explains\n        A pool is of 2 to 16 servers, one page set each.\n', ''),
                         ('order rust/src/kvm.rs 10', 'order rust/src/kvm.rs 100'), ('order rust/src/kvm.rs 10', 'order rust/src/pool.rs 10')):
            whole = self.text('include/refusals.txt')
            self.edit('include/refusals.txt', old, new)
            status, said = self.asked('--write')
            self.assertEqual(status, 1, new)
            self.assertRegex(said, 'include/refusals.txt|rust/src/pool.rs')
            (self.root / 'include/refusals.txt').write_text(whole)

    def test_an_order_is_that_of_the_list(self):
        self.edit('include/refusals.txt', 'order rust/src/kvm.rs 10 12 11 9', 'order rust/src/kvm.rs 10 11 20 12 9')
        self.assertEqual((self.asked('--write')[0], self.asked('--check')[0]), (0, 0))
        self.assertIn('/// [`Refusal::ListLength`], [`Refusal::ListRows`], [`Refusal::NothingDecides`], [`Refusal::ListFields`] and '
                      '[`Refusal::BufferTooShort`], in this\n/// order.\n', self.text('rust/src/kvm.rs'))

    def further(self, details, words):
        """A refusal 21 in the list and in the arms of the proved source; what was made then."""
        self.setUp()
        with (self.root / 'include/refusals.txt').open('a') as file:
            file.write(f'21 GuestGone{details}\n    means the guest is gone\n{words}    explains\n        No guest.\n        None.\n')
        self.edit('crates/table/src/numbers.rt', '        Refusal::NothingDecides =>', '        Refusal::GuestGone => with_s(21, 0),\n'
                  '        Refusal::NothingDecides =>')
        self.assertEqual((self.asked('--write')[0], self.asked('--check')[0]), (0, 0))
        return self.text('rust/src/refusal.rs'), self.text('tests/data/messages.txt')

    def test_a_further_refusal_needs_no_hand(self):
        rust, messages = self.further('', '    says no guest asks\n')
        for line in ('    /// 21: the guest is gone.\n    GuestGone,\n}\n', '            | Refusal::GuestGone => Details::default(),\n',
                     '            (21, none, Refusal::GuestGone),\n        ] {\n'):
            self.assertIn(line, rust)
        self.assertTrue(messages.endswith('\n21: no guest asks\n'))
        meanings = self.text('rust/src/bin/snp-cpuid/meanings.rs')
        self.assertIn('const MEANINGS: [&str; 21] = [\n', meanings)
        self.assertIn('    // 21\n    "No guest. None.",\n];\n', meanings)

    def test_what_a_further_refusal_names(self):
        rust, messages = self.further(' leaf', '    rust a guest went\n    says no guest asks for %lh\n    with 1, 8000001E\n')
        for line in ('    /// 21: a guest went.\n    GuestGone {\n        /// the leaf\n        leaf: u32,\n    },\n}\n',
                     '            Refusal::ReservedBytes { leaf } | Refusal::GuestGone { leaf } => Details { leaf, ..Details::default() },\n',
                     '            (21, Details { leaf: 0x4000_0000, ..none }, Refusal::GuestGone { leaf: 0x4000_0000 }),\n'):
            self.assertIn(line, rust)
        self.assertTrue(messages.endswith('\n21 00000001: no guest asks for 1h\n21 8000001E: no guest asks for 8000001Eh\n'))
        rust, messages = self.further(' leaf subleaf', '    says if no subleaf: no %lh\n    says no %lh.%c\n    with D, D 12\n')
        for line in ('    GuestGone(u32, Option<u32>),\n}\n', ' | Refusal::GuestGone(leaf, subleaf) => Details { leaf, subleaf, ',
                     '            (21, leaf, Refusal::GuestGone(0x8000_001D, Some(3))),\n',
                     '            (21, Details { leaf: 5, ..none }, Refusal::GuestGone(5, None)),\n'):
            self.assertIn(line, rust)
        self.assertTrue(messages.endswith('\n21 0000000D: no Dh\n21 0000000D 12: no Dh.C\n'))
        rust, messages = self.further(' s', '    says if s 0: none\n    says if s below 3: %p of %s\n    says %s\n    with 0, 2, 255\n')
        self.assertIn('    GuestGone(u8),\n}\n', rust)
        self.assertIn('            (21, s, Refusal::GuestGone(7)),\n', rust)
        self.assertTrue(messages.endswith('\n21 0: none\n21 2: 4 of 2\n21 255: 255\n'))

    def test_what_has_no_form_for_c_is_told(self):
        self.edit('crates/snp_cpuid_c/src/nearest_exports.rt', '    edition: u32,\n', '    edition: Choices,\n')
        self.assertEqual(self.asked('--check'), (1, 'snp_cpuid_nearest takes edition: Choices, which has no form for C\n'))

    def test_usage(self):
        self.assertEqual(self.asked('--read')[0], 2)


if __name__ == '__main__':
    unittest.main()
