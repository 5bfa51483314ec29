#!/usr/bin/env python3
"""interface.py: what callers in C and Rust are told of the library, made from the proved source and from include/refusals.txt.

--write writes it, and --check fails where a file has something else:
  include/snp_cpuid.h       the fields of each struct, with the comments that stand there; the enum of the refusals; what stands between the marks
                            "made" and "end": the words of the refusals, the raw functions, and structs that stand nowhere else
  rust/src/exports.rs       structs and functions, the whole file
  rust/src/refusal_list.rs  the refusals, the whole file
  rust/src/refusal.rs       their variants, what each names, and the rows of the test of numbers and details
  rust/src/kvm.rs, carry.rs, nearest.rs    which of them a function gives, in their order
  rust/src/bin/snp-cpuid/meanings.rs    what `explain` says of each number
  tests/data/messages.txt   their messages, with the details of the list, the whole file
  tests/c/layout.h          the size of each struct and the place of each field, for a C compiler to hold
  docs/EMBEDDING.md         the refusals, between marks
A new function or struct of the source needs no more than --write.
"""
import hashlib
from pathlib import Path
import re
import sys

import made_files
import refusal_list
import refusal_rust
from proved_source import PLAIN, Unlisted, constant, functions, structs

ROOT = Path(__file__).resolve().parents[2]
RUST, MEANINGS = 'rust/src/refusal.rs', 'rust/src/bin/snp-cpuid/meanings.rs'
WIDTH = 150
FIVE = [('number', 'u32'), ('leaf', 'u32'), ('has_subleaf', 'u32'), ('subleaf', 'u32'), ('s', 'u32')]
C_TYPES = {'u32': 'uint32_t ', 'u64': 'uint64_t ', 'usize': 'size_t ', 'bool': 'bool ', 'u8': 'uint8_t '}


class Interface:
    """The structs and functions of the proved source, and the refusals."""

    def __init__(self, root):
        self.root = root
        self.structs, self.functions = structs(root), functions(root)
        self.registers, self.places = constant(root, 'memory/src/lib.rt', 'REGISTERS'), constant(root, 'masking/src/lib.rt', 'PLACES')
        self.refusals = refusal_list.refusals(root)
        for function in self.functions:
            if function.answer not in {struct.name for struct in self.structs} | {'u32'}:
                raise Unlisted(f'{function.name} gives {function.answer or "nothing"}, which has no form for C')

    def symbol(self):
        """A name that is another one for other declarations."""
        said = [(struct.name, struct.fields) for struct in self.structs], [function[:1] + function[2:] for function in self.functions]
        return f'snp_cpuid_interface_{hashlib.sha256(repr((said, self.registers, self.places)).encode()).hexdigest()[:8]}'

    def c_name(self, struct):
        """The name of a struct in C. In C++ a function of the same name would hide it."""
        name = 'snp_cpuid' + re.sub(r'([A-Z])', r'_\1', struct).lower()
        return f'{name}_answer' if name in {function.name for function in self.functions} else name

    def c_type(self, kind):
        pointer = re.match(r'\*(const|mut) (\w+)$', kind)
        if pointer:
            return ('const ' if pointer[1] == 'const' else '') + C_TYPES[pointer[2]] + '*'
        return C_TYPES[kind] if kind in C_TYPES else f'struct {self.c_name(kind)} '

    def c_struct(self, struct, comments):
        """A struct with the comments of its fields; the five of a refusal are one macro."""
        fields, rows = list(struct.fields), []
        while fields:
            if fields[:5] == FIVE:
                rows.append(('SNP_CPUID_REFUSAL;', comments.get('SNP_CPUID_REFUSAL', '')))
                fields = fields[5:]
            else:
                name, kind = fields.pop(0)
                rows.append((f'{self.c_type(kind)}{name};', comments.get(name, '')))
        return f'struct {self.c_name(struct.name)} {{\n' + ''.join(f'    {row}{comment}\n' for row, comment in rows) + '};\n'

    def c_function(self, function):
        """The source's own comment and the declaration, in lines that fit."""
        head = f'{self.c_type(function.answer)}{function.name}('
        lines = [head]
        for at, (name, kind) in enumerate(function.parameters):
            word = f'{self.c_type(kind)}{name}' + (');' if at == len(function.parameters) - 1 else ',')
            if len(lines[-1]) + 1 + len(word) > WIDTH:
                lines.append(' ' * len(head) + word)
            else:
                lines[-1] += ('' if lines[-1].endswith('(') else ' ') + word
        return f'/* {function.comment} */\n' + '\n'.join(lines) + '\n'

    def rust_function(self, function):
        answer = function.answer
        given = [f'{name}: {kind}' for name, kind in function.parameters]
        line = f'    pub fn {function.name}({", ".join(given)}) -> {answer};\n'
        if len(line) <= WIDTH + 1:
            return line
        return f'    pub fn {function.name}(\n' + ''.join(f'        {each},\n' for each in given) + f'    ) -> {answer};\n'

    def rust(self):
        """rust/src/exports.rs"""
        made = ''.join(f'#[repr(C)]\n#[derive(Clone, Copy, Debug, Default, PartialEq, Eq)]\npub struct {struct.name} {{\n'
                       + ''.join(f'    pub {name}: {kind},\n' for name, kind in struct.fields) + '}\n\n' for struct in self.structs)
        return ('//! The exported functions on plain numbers, as include/snp_cpuid.h documents them; the crate\'s root has the safe way in.\n'
                '//! Made from the proved source by `tests/gate/interface.py --write`.\n\n#![allow(missing_docs)]\n\n' + made
                + '#[repr(C)]\n#[derive(Clone, Copy, Debug, PartialEq, Eq)]\npub struct Table {\n'
                f'    pub registers: [u32; {self.registers}],\n    pub origins: [u64; {self.places}],\n}}\n\n'
                '/// Refers to the symbol of the library that has these declarations, by a no-op that names it: another library does not link.\n'
                '#[inline(always)]\npub(crate) fn same_interface() {\n    // SAFETY: the instruction does nothing\n'
                f'    unsafe {{ core::arch::asm!("nopl {self.symbol()}(%rip)", options(att_syntax, nomem, nostack, preserves_flags)) }}\n}}\n\n'
                'unsafe extern "C" {\n' + ''.join(map(self.rust_function, self.functions)) + '}\n')

    def layout(self):
        """tests/c/layout.h"""
        lines = []
        for struct in self.structs:
            at, widest, name = 0, 1, self.c_name(struct.name).removeprefix('snp_cpuid_')
            for field, kind in struct.fields:
                size = PLAIN[kind]
                at, widest = -(-at // size) * size, max(widest, size)
                lines.append(f'AT({name}, {field}, {at});\n')
                at += size
            lines.append(f'BYTES({name}, {-(-at // widest) * widest});\n')
            if struct.fields[:5] == FIVE or struct.fields[1:6] == FIVE:
                lines.append(f'REFUSAL_AT({name}, {4 * (struct.fields[0] != FIVE[0])});\n')
        lines += [f'BYTES(kept_table, {4 * self.registers + 8 * self.places});\n', 'AT(kept_table, registers, 0);\n',
                  f'AT(kept_table, origins, {4 * self.registers});\n']
        return '/* Sizes and places of the structs as the proved source has them, by tests/gate/interface.py --write. */\n' + ''.join(lines)

    def raw(self, header):
        """The structs that stand nowhere else in the header, and the functions: over a table, of pages alone, of a build and a call over a table."""
        new = [struct for struct in self.structs if f'struct {self.c_name(struct.name)} {{' not in header]
        table = [function for function in self.functions if function.name.startswith('snp_cpuid_table_')]
        built = [function for function in self.functions if function.comment.startswith('Builds') and function not in table]
        rest = [function for function in self.functions if function not in table + built]
        parts = [f'/* {struct.comment} */\n{self.c_struct(struct, {})}' for struct in new]
        for title, part in (('over the two arrays of a table', table), ('of pages, lists, images and lines', rest),
                            (f'the {len(built)} that build and make one call of those over a table: with a table at hand, call that', built)):
            parts += [f'/* -- {title} */\n', *map(self.c_function, part)]
        return '\n'.join(parts)


def between(text, what, made):
    """The text with what is made between its two marks."""
    found = re.search(rf'^(.*\bmade: {what}, .*\n)(?:.*\n)*?(.*\bend: {what} .*\n)', text, re.MULTILINE)
    if not found:
        raise Unlisted(f'there are no two marks for {what}')
    return text[:found.end(1)] + made + text[found.start(2):]


def field_comments(body):
    """{field: its comment and what stands before it}, of the body of a struct."""
    found = {}
    for line in body.splitlines():
        row = re.match(r'^ *(?:.*[ *])?(\w+);( +/\*.*\*/)?$', line)
        if not row:
            raise Unlisted(f'a line in a struct of the header that is no field: {line}')
        found[row[1]] = row[2] or ''
    return found


def header(interface, text):
    """The header with everything that is made."""
    text = re.sub(r'^(#define SNP_CPUID_INTERFACE) .*$', rf'\1 {interface.symbol()}', text, count=1, flags=re.MULTILINE)
    text = re.sub(r'^enum snp_cpuid_number \{\n(?:.*\n)*?\};\n', lambda _: refusal_list.c_enum(interface.refusals), text, count=1, flags=re.MULTILINE)
    text = between(text, 'words', refusal_list.c_words(interface.refusals))
    raw = re.search(r'^.*\bmade: raw functions, .*\n(?:.*\n)*?.*\bend: raw functions .*\n', text, re.MULTILINE)
    outside = text[:raw.start()] + text[raw.end():] if raw else text
    text = between(text, 'raw functions', interface.raw(outside))
    text = between(text, 'raw names', ''.join(f'#pragma GCC poison {function.name}\n' for function in interface.functions))
    for struct in interface.structs:
        body = re.search(rf'^struct {interface.c_name(struct.name)} \{{\n((?:    .*\n)*)\}};\n', text, re.MULTILINE)
        text = text[:body.start()] + interface.c_struct(struct, field_comments(body[1])) + text[body.end():]
    arrays = f'struct snp_cpuid_kept_table {{\n    uint32_t registers[{interface.registers}];\n    uint64_t origins[{interface.places}];\n}};\n'
    if arrays not in text:
        raise Unlisted('struct snp_cpuid_kept_table is not in the header, or its arrays are not as long as the source has them')
    return text


def made(root):
    """{path: its text as it should be}, and how many parts the interface has."""
    interface = Interface(root)
    read = {path: (root / path).read_text(encoding='utf-8') for path in ('include/snp_cpuid.h', RUST, MEANINGS, 'docs/EMBEDDING.md')}
    texts = {
        'include/snp_cpuid.h': header(interface, read['include/snp_cpuid.h']),
        'rust/src/exports.rs': interface.rust(),
        'rust/src/refusal_list.rs': refusal_list.rust_list(root, interface.refusals),
        RUST: refusal_rust.rust(root, interface.refusals, read[RUST]),
        MEANINGS: refusal_rust.meanings(interface.refusals, read[MEANINGS]),
        'tests/data/messages.txt': refusal_list.messages(interface.refusals),
        'tests/c/layout.h': interface.layout(),
        'docs/EMBEDDING.md': between(read['docs/EMBEDDING.md'], 'refusals', '\n' + refusal_list.markdown(interface.refusals) + '\n'),
    }
    for path, order in refusal_list.orders(root).items():
        texts[path] = refusal_rust.errors(path, order, (root / path).read_text(encoding='utf-8'))
    parts = len(interface.structs), len(interface.functions), len(interface.refusals)
    return texts, f'{sum(parts)} parts: {parts[0]} structs, {parts[1]} functions and {parts[2]} refusals in {len(texts)} files'


def main(words, root=ROOT):
    return made_files.run(words, root, 'interface', __doc__, made)


if __name__ == '__main__':
    sys.exit(main(sys.argv[1:]))
