"""Reads cpuid-bits.csv, the public places of CPUID bits (x86-cpuid.org, CC0-1.0)."""
from collections import namedtuple
from pathlib import Path

CSV = Path(__file__).resolve().parents[1] / 'data' / 'cpuid-bits.csv'

# `subleaves` and `bits` are (lowest, highest), both included; a leaf without subleaves has (0, 0).
Line = namedtuple('Line', 'leaf subleaves register bits name')


def bounds(text):
    """The range that '5' or '15:8' names."""
    ends = [int(end, 0) for end in text.split(':')]
    return min(ends), max(ends)


def load(path=CSV):
    """Every line of the file but comments and empty ones."""
    lines = []
    for row in path.read_text(encoding='ascii').splitlines():
        if row.strip() and not row.startswith('#'):
            leaf, subleaves, register, bits, name = (part.strip() for part in row.split(',')[:5])
            lines.append(Line(int(leaf, 0), bounds(subleaves), register.upper(), bounds(bits), name))
    return lines


def register_lines(lines, leaf, subleaf, register):
    """The lines of one register, for example of D.1.ECX as (0xd, 1, 'ECX')."""
    return [line for line in lines
            if line.leaf == leaf and line.register == register
            and line.subleaves[0] <= (subleaf or 0) <= line.subleaves[1]]
