"""The header as an embedder meets it: beside Linux's own names, without a C library's headers, on the wrong machine, with swapped arguments and with
a library of other declarations."""
from pathlib import Path
import re
import shutil
import subprocess
import tempfile
import unittest

from stack import HEADER, LIBRARY, ROOT

STRICT = ['-Wall', '-Wextra', '-Wpedantic', '-Wshadow', '-Wconversion', '-Werror']
OPENING = '''#include <snp_cpuid.h>
static struct snp_cpuid_kept_table table, other;
static struct snp_cpuid_bytes pages, list;
static struct snp_cpuid_room out;
static struct snp_cpuid_options options;
static struct snp_cpuid_processor processor;
static struct snp_cpuid_query query;
static struct snp_cpuid_state state;
static struct snp_cpuid_editions editions;
static struct snp_cpuid_refusal refusal;
'''
# every call of parts 1 and 2; each with its arguments in turn exchanged for another must not compile
CALLS = '''
snp_cpuid_build_into(&table, pages, options)
snp_cpuid_state_of(&table, processor)
snp_cpuid_guest_find_kept(&table, processor, state, query)
snp_cpuid_guest_find(&table, processor, query)
snp_cpuid_write_table_image(&table, out)
snp_cpuid_find(&table, query)
snp_cpuid_become_guest(&table, processor)
snp_cpuid_read_image_into(&table, pages)
snp_cpuid_write_table_kvm(&table, out)
snp_cpuid_read_kvm_pages(list, out)
snp_cpuid_carry_table(&table, editions, processor)
snp_cpuid_carry_image(out, editions, processor)
snp_cpuid_find_entry(pages, query)
snp_cpuid_nearest_bit(pages, options)
snp_cpuid_write_refusal(refusal, out)
'''.split('\n')[1:-1]


class Header(unittest.TestCase):
    def compiled(self, text, *words, compiler='gcc', language='c'):
        """What the compiler says of a text, with its exit status; nothing is written."""
        given = [compiler, '-x', language, '-I', ROOT / 'include', '-S', '-o', '/dev/null', *words, '-']
        ran = subprocess.run(given, input=text, capture_output=True, text=True, check=False)
        return ran.returncode, ran.stderr

    def compiles(self, text, *words, **how):
        self.assertEqual(self.compiled(text, *words, **how), (0, ''))

    def fails(self, text, why, *words, **how):
        status, said = self.compiled(text, *words, **how)
        self.assertNotEqual(status, 0, text)
        self.assertRegex(said, why)

    def test_swapped_arguments_do_not_compile(self):
        for call in CALLS:
            name, given = re.match(r'(\w+)\((.*)\)', call).groups()
            given = given.split(', ')
            function = OPENING + 'void f(void);\nvoid f(void) {{ (void)sizeof({}); (void)other; }}\n'
            self.compiles(function.format(call))
            for at in range(1, len(given)):
                swapped = [*given[:at - 1], given[at], given[at - 1], *given[at + 1:]]
                self.fails(function.format(f'{name}({", ".join(swapped)})'), 'incompatible type|cannot convert|argument')

    def test_raw_functions_have_no_name_unless_asked_for(self):
        call = ('#include <snp_cpuid.h>\nuint64_t f(const uint8_t *p);\n'
                'uint64_t f(const uint8_t *p) { return snp_cpuid_build(p, 0, false, 1).row_count; }\n')
        self.fails(call, 'poisoned "snp_cpuid_build"')
        self.compiles('#define SNP_CPUID_RAW\n' + call)

    def test_an_answer_that_decides_is_not_dropped(self):
        dropped = OPENING + 'void f(void);\nvoid f(void) { snp_cpuid_state_of(&table, processor); }\n'
        self.fails(dropped, 'warn_unused_result', '-Werror=unused-result')

    def test_it_stands_beside_the_structs_of_linux(self):
        """arch/x86/coco/sev/shared.c of Linux 6.12"""
        linux = ('#include <stdint.h>\nstruct snp_cpuid_fn { uint32_t eax_in, ecx_in; uint64_t xcr0_in, xss_in; uint32_t eax, ebx, ecx, edx; };\n'
                 '#define SNP_CPUID_COUNT_MAX 64\nstruct snp_cpuid_table { uint32_t count; struct snp_cpuid_fn fn[SNP_CPUID_COUNT_MAX]; };\n')
        self.compiles(linux + '#include <snp_cpuid.h>\n', *STRICT)

    def test_a_caller_may_bring_its_own_types(self):
        own = ('typedef unsigned char uint8_t;\ntypedef unsigned uint32_t;\ntypedef unsigned long uint64_t;\ntypedef unsigned long size_t;\n'
               'typedef _Bool bool;\n#define SNP_CPUID_OWN_TYPES\n#include <snp_cpuid.h>\n')
        self.compiles(own, '-nostdinc', '-ffreestanding', *STRICT)

    def test_in_every_language_without_a_warning(self):
        for standard in 'c99', 'c11', 'c2x':
            self.compiles('#include <snp_cpuid.h>\n', f'-std={standard}', *STRICT)
        for standard in 'c++11', 'c++17', 'c++20':
            self.compiles('#include <snp_cpuid.h>\n', f'-std={standard}', *STRICT, compiler='g++', language='c++')

    def test_another_machine_or_convention_is_an_error(self):
        for word in '-m32', '-mx32', '-U__x86_64__':
            self.fails('#include <snp_cpuid.h>\n', '#error "libsnp_cpuid.a is for x86-64', '-ffreestanding', word)
        self.fails('#include <snp_cpuid.h>\n', '#error "libsnp_cpuid.a has the System V', '-ffreestanding', '-U__ELF__')
        self.fails('#include <snp_cpuid.h>\n', 'snp_cpuid_calls_by_system_v', '-mabi=ms')


class OldLibrary(unittest.TestCase):
    """A library whose declarations are others, by its symbol."""

    def test_it_does_not_link(self):
        symbol = re.search(r'^#define SNP_CPUID_INTERFACE (\w+)$', HEADER.read_text(), re.MULTILINE)[1]
        linkers = [['gcc'], ['gcc', '-ffunction-sections', '-Wl,--gc-sections'], ['g++', '-x', 'c++']]
        if shutil.which('clang') and shutil.which('ld.lld'):
            linkers.append(['clang', '-fuse-ld=lld'])
        with tempfile.TemporaryDirectory() as folder:
            old, caller, program = (Path(folder, name) for name in ('old.a', 'caller.c', 'caller'))
            subprocess.run(['objcopy', '--redefine-sym', f'{symbol}=snp_cpuid_interface_of_old', LIBRARY, old], check=True)
            caller.write_text(OPENING + 'int main(void) { return (int)snp_cpuid_build_into(&table, pages, options).number; }\n')
            for linker in linkers:
                for library, status in (LIBRARY, 0), (old, 1):
                    ran = subprocess.run([*linker, '-O2', '-w', '-I', ROOT / 'include', '-o', program, caller, '-x', 'none', library],
                                         capture_output=True, text=True, check=False)
                    self.assertEqual(min(ran.returncode, 1), status, ran.stderr)
                    self.assertEqual(symbol in ran.stderr, bool(status), ran.stderr)

    def test_a_program_with_ibt_and_shstk_keeps_them(self):
        with tempfile.TemporaryDirectory() as folder:
            caller, program = Path(folder, 'caller.c'), Path(folder, 'caller')
            caller.write_text(OPENING + 'int main(void) { return (int)snp_cpuid_build_into(&table, pages, options).number; }\n')
            words = ['-O2', '-w', '-fcf-protection=full', '-r', '-nostdlib', '-I', ROOT / 'include', '-o', program]
            subprocess.run(['gcc', *words, caller, LIBRARY], check=True)
            notes = subprocess.run(['readelf', '-n', program], capture_output=True, text=True, check=True).stdout
            self.assertIn('x86 feature: IBT, SHSTK', notes)


if __name__ == '__main__':
    unittest.main()
