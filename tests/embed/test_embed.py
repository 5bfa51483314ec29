"""The library inside a kernel or a paravisor: what docs/EMBEDDING.md promises of its object code, its stack and the ways to link it."""
from pathlib import Path
import re
import shutil
import signal
import subprocess
import tempfile
import unittest

import object_code
import stack
from stack import LIBRARY, ROOT

PAGES = ROOT / 'tests' / 'data' / 'epyc-milan.pages'
# what the model of document 01 makes of the pages
IMAGE = ROOT / 'crates' / 'snp_cpuid_image' / 'stdout'
STRICT = ['-O2', '-Wall', '-Wextra', '-Wpedantic', '-Werror', '-I', ROOT / 'include']
BARE = ['-nostdlib', '-ffreestanding', '-fno-stack-protector', '-fcf-protection=none']


def said(*words):
    return subprocess.run(words, capture_output=True, text=True, check=True).stdout


def whole(library):
    """The words that link all of a library, called or not."""
    return ['-Wl,--whole-archive', library, '-Wl,--no-whole-archive']


class ObjectCode(unittest.TestCase):
    library = LIBRARY
    beyond_general = {'xmm'}

    def test_it_needs_memcpy_and_memset_alone(self):
        self.assertEqual(set(re.findall(r' [Uvw] (\S+)', said('nm', '-u', self.library))), {'memcpy', 'memset'})

    def test_it_exports_what_the_header_declares(self):
        names = [line.split()[-1] for line in said('nm', '-g', '--defined-only', self.library).splitlines() if ' T ' in line]
        self.assertEqual(sorted(names), sorted(stack.exported()))
        self.assertGreaterEqual(len(names), 18)

    def test_it_keeps_no_state(self):
        """No section that can be written holds a byte, and none runs before or after main."""
        table = re.compile(r'\] (\.\S+) +(\w+) +[0-9a-f]+ [0-9a-f]+ ([0-9a-f]+) [0-9a-f]+ +([WAXMSILOGTCxoEDlp]*) ')
        sections = table.findall(said('readelf', '-SW', self.library))
        self.assertTrue(any(name.startswith('.text.') for name, *_ in sections))
        self.assertEqual([name for name, _, size, flags in sections if 'W' in flags and int(size, 16)], [])
        self.assertEqual([name for name, kind, *_ in sections if kind in ('INIT_ARRAY', 'FINI_ARRAY', 'PREINIT_ARRAY')], [])

    def test_its_registers_are_the_general_ones_and_sse(self):
        names = {name for function in object_code.functions(self.library).values() for _, operands, _ in function.code.values()
                 for name in re.findall(r'%([a-z]+)', operands)}
        general = {'rax', 'rbx', 'rcx', 'rdx', 'rsi', 'rdi', 'rbp', 'rsp', 'rip', 'eax', 'ebx', 'ecx', 'edx', 'esi', 'edi', 'ebp', 'esp', 'eip',
                   'ax', 'bx', 'cx', 'dx', 'si', 'di', 'bp', 'sp', 'al', 'bl', 'cl', 'dl', 'sil', 'dil', 'bpl', 'spl', 'ah', 'bh', 'ch', 'dh', 'r'}
        # string instructions name two segments
        self.assertEqual(names - general - {'ds', 'es'}, self.beyond_general)

    def test_every_exported_function_begins_with_endbr64(self):
        found = object_code.functions(self.library)
        begins = {name: found[name].code[min(found[name].code)][0] for name in stack.exported()}
        self.assertEqual(set(begins.values()), {'endbr64'}, begins)

    def test_nothing_jumps_or_calls_by_pointer_or_table(self):
        """A guest chooses the leaf, so no jump may go where a leaf says."""
        jumps = [(function.name, mnemonic, operands) for function in object_code.functions(self.library).values()
                 for mnemonic, operands, _ in function.code.values() if mnemonic.startswith(('j', 'call')) and operands.startswith('*')]
        self.assertEqual(jumps, [])

    def test_no_code_stands_behind_a_return(self):
        returns = 0
        for function in object_code.functions(self.library).values():
            order = sorted(function.code)
            for at, following in zip(order, order[1:] + [None]):
                if function.code[at][0] in ('ret', 'retq'):
                    self.assertEqual(function.code[following][0] if following else 'nothing', 'int3', f'{function.name} at {at:x}')
                    returns += 1
        self.assertGreaterEqual(returns, len(stack.exported()))

    def test_a_program_keeps_ibt_and_shadow_stacks(self):
        self.assertIn('x86 feature: IBT, SHSTK', said('readelf', '-n', self.library))

    def test_it_has_the_symbol_of_the_header_and_no_unwind_information(self):
        symbol = re.search(r'^#define SNP_CPUID_INTERFACE (\w+)$', stack.HEADER.read_text(), re.MULTILINE)[1]
        self.assertRegex(said('nm', '-g', '--defined-only', self.library), rf' R {symbol}\n')
        self.assertNotIn('.eh_frame', said('readelf', '-SW', self.library))

    def test_no_instruction_is_privileged_or_reads_the_machine(self):
        used = {mnemonic for function in object_code.functions(self.library).values() for mnemonic, *_ in function.code.values()}
        never = 'syscall sysenter int cpuid rdtsc rdtscp rdrand rdmsr wrmsr in out hlt cli sti ldmxcsr std vzeroupper emms ud2'
        self.assertEqual(used & set(never.split()), set())


class Stack(unittest.TestCase):
    library = LIBRARY

    def test_the_page_states_every_function(self):
        self.assertEqual(list(stack.stated()), stack.exported())

    def test_the_figures_are_bounds_and_near(self):
        """A figure below the bound is wrong; one far above it is no longer that of this library. stack.py --write mends both."""
        page = stack.stated(self.library)
        for name, bound in stack.measured(self.library).items():
            self.assertTrue(bound <= page[name] <= bound + 4 * stack.STEP, f'{name}: {page[name]} stated, at most {bound} taken')
        self.assertLessEqual(max(page.values()), stack.most())

    def test_the_headers_figure_is_that_of_both_tables(self):
        self.assertEqual(stack.most(), stack.power(max(figure for library in (LIBRARY, stack.RING0) for figure in stack.stated(library).values())))

    @classmethod
    def setUpClass(cls):
        folder = tempfile.TemporaryDirectory()
        cls.addClassCleanup(folder.cleanup)
        cls.program = Path(folder.name, 'stack')
        # -static: a call of memcpy that the loader has to bind first would take the loader's stack too
        subprocess.run(['gcc', '-std=gnu11', '-O2', '-Wall', '-Wextra', '-Werror', '-static', '-I', ROOT / 'include', '-o', cls.program,
                        ROOT / 'tests' / 'embed' / 'stack.c', cls.library], check=True)

    def run_on(self, sizes):
        words = [f'{name}={size}' for name, size in sizes.items()]
        return subprocess.run([self.program, PAGES, *words], capture_output=True, text=True, check=False)

    def test_every_function_runs_over_a_guard_page(self):
        ran = self.run_on(stack.stated(self.library))
        self.assertEqual(ran.returncode, 0, ran.stdout)
        self.assertEqual(ran.stdout.splitlines()[-1], f'{len(stack.exported())} functions')

    def test_the_calls_go_deep_and_the_guard_page_is_met(self):
        """Of its bound each function touches at least half; on a stack that is smaller than what it touches, it ends at the guard page."""
        ran = self.run_on(stack.stated(self.library))
        touched = {name: int(number) for name, number in re.findall(r'^(\w+) touched (\d+) of', ran.stdout, re.MULTILINE)}
        for name, bound in stack.measured(self.library).items():
            self.assertTrue(bound <= 2 * touched[name] and touched[name] <= bound, f'{name}: touched {touched[name]} of {bound}')
            less = (touched[name] - 1) // 16 * 16
            if less:
                ran = self.run_on({name: less})
                self.assertEqual((ran.returncode, ran.stdout.strip()), (-signal.SIGSEGV, name))


class Linked(unittest.TestCase):
    library = LIBRARY

    def setUp(self):
        folder = tempfile.TemporaryDirectory()
        self.addCleanup(folder.cleanup)
        self.folder = Path(folder.name)
        self.source = ROOT / 'tests' / 'embed' / 'freestanding.c'

    def built(self, compiler, *words):
        program = self.folder / 'program'
        ran = subprocess.run([compiler, *STRICT, *words, '-o', program], capture_output=True, text=True, check=False)
        self.assertEqual((ran.returncode, ran.stderr), (0, ''))
        return program

    def gives_the_image(self, program, **environment):
        with open(PAGES, 'rb') as pages:
            ran = subprocess.run([program], stdin=pages, capture_output=True, env=environment, check=False)
        self.assertEqual((ran.returncode, ran.stdout), (0, IMAGE.read_bytes()))
        refused = subprocess.run([program], input=b'', capture_output=True, env=environment, check=False)
        self.assertEqual((refused.returncode, refused.stdout), (1, b''))
        self.assertEqual(refused.stderr, b'the CPUID pages must be one or more whole pages of 4,096 bytes')

    def test_without_a_c_library(self):
        self.gives_the_image(self.built('gcc', '-std=c11', *BARE, '-static', self.source, *whole(self.library)))

    def test_at_any_address_without_relocation(self):
        program = self.built('gcc', '-std=c11', *BARE, '-fPIE', '-static-pie', self.source, *whole(self.library))
        self.assertIn('no relocations', said('readelf', '-r', program))
        self.gives_the_image(program)

    def test_as_a_shared_object(self):
        shared = self.folder / 'libsnp_cpuid.so'
        subprocess.run(['gcc', '-shared', '-Wl,-z,defs', '-o', shared, *whole(self.library), '-lc'], check=True)
        # no relocation of its text
        self.assertNotIn('TEXTREL', said('readelf', '-d', shared))
        self.gives_the_image(self.built('gcc', '-std=c11', '-DHOSTED', '-DSNP_CPUID_SHARED', self.source, shared), LD_LIBRARY_PATH=str(self.folder))

    def test_from_c_plus_plus(self):
        self.gives_the_image(self.built('g++', '-std=c++11', '-x', 'c++', '-DHOSTED', self.source, '-x', 'none', self.library))

    @unittest.skipUnless(shutil.which('clang') and shutil.which('ld.lld'), 'clang and lld are not installed (apt-get install clang lld)')
    def test_by_clang_and_lld(self):
        self.gives_the_image(self.built('clang', '-std=c11', *BARE, '-static', '-fuse-ld=lld', self.source, *whole(self.library)))


if __name__ == '__main__':
    unittest.main()
