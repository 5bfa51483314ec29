"""Builds examples/exits.c with the header and the library alone, runs it on page sets that are accepted and refused, and holds what it prints against
the models. The header's words for the refusals that occur stand here once more."""
from pathlib import Path
import subprocess
import sys
import tempfile

import model
import model_table as kept
from pagesets import MILAN, STATE, changed, rich, spread, without

ROOT = Path(__file__).resolve().parents[2]
EXITS = (0, 0), (1, 0), (0xB, 1), (STATE, 0), (STATE, 1), (0x80000001, 7), (0x40000000, 0)
APIC, XCR0, XSS = 5, 7, 0
WORDS = {
    0: 'accepted', 1: "the pages' length is 0 or no multiple of 4096", 3: 'a required result is missing', 4: 'INVLPGB is unavailable',
    13: 'the table does not allow this XCR0 or XSS', 14: "the compacted save area's size does not fit 32 bits"}
SETS = {
    'shipped': MILAN,
    'every bit': spread(rich()),
    # XCR0 is beyond it, and edition 2 has bits to clear
    'without YMM': spread(changed(rich(), STATE, 0, eax=3)),
    'a large state': spread(changed(rich(), STATE, 2, eax=0xFFFFFFFF, ebx=0)),
    'no bytes': b'',
    'no leaf 7': spread(without(rich(), 7, 0)),
    'no INVLPGB': spread(changed(rich(), 0x80000008, ebx=0)),
}


def exit_line(memory, leaf, subleaf):
    registers, number = (0, 0, 0, 0), 0
    try:
        registers = (kept.guest_find(memory, APIC, XCR0, XSS, True, leaf, subleaf, False) or [registers])[0]
    except model.Refusal as refusal:
        number = refusal.answer[1]
    return ' '.join([f'{leaf:08X}.{subleaf}', *(f'{register:08X}' for register in registers), WORDS[number]])


def expected(pages):
    """(the lines, the exit status)"""
    answer, memory = kept.build(pages, False, 1)
    if answer[0] == 'refusal':
        return [f'{WORDS[answer[1]]}, 0 rows'], 1
    number, carried = kept.carried(memory, 1, 2, XCR0, XSS)
    (_, _, ecx, _), _ = kept.find(carried, 1, 0, False)
    lines = [f'accepted, {len(answer[1])} rows', *(exit_line(memory, *asked) for asked in EXITS), f'edition 2: {WORDS[number]}, 1.ECX {ecx:08X}']
    return lines, int(number != 0)


def main():
    ran = 0
    with tempfile.TemporaryDirectory() as folder:
        program, file = Path(folder, 'exits'), Path(folder, 'pages')
        subprocess.run(['gcc', '-std=c11', '-O2', '-Wall', '-Wextra', '-Wpedantic', '-Werror', '-I', ROOT / 'include', '-o', program,
                        ROOT / 'examples' / 'exits.c', ROOT / 'target' / 'staticlib' / 'libsnp_cpuid.a'], check=True)
        for name, pages in SETS.items():
            file.write_bytes(pages)
            printed = subprocess.run([program, file], capture_output=True, text=True, check=False)
            lines, status = expected(pages)
            if (printed.stdout.splitlines(), printed.returncode) != (lines, status):
                print(f'{name}: printed, with status {printed.returncode}\n{printed.stdout}and not, with status {status}\n' + '\n'.join(lines))
                return 1
            ran += len(lines)
    print(f'{ran} lines of the example in C are as the models have them')
    return 0


if __name__ == '__main__':
    sys.exit(main())
