"""What the object code of the library says of itself: the stack of each function, the registers and the red zone.

The stack is a bound over all paths: at each instruction how far the stack pointer stands below the return address, and below a call the bound of the
function that is called. An instruction that moves the stack pointer in a way unknown here, a call by pointer or a recursion ends in an error.
"""
import re
import subprocess

# the two functions that the program supplies
OUTSIDE = {'memcpy', 'memset'}
# '  1f:\tpush   %rbx'; a line of objdump -r below it: '\t\t\t20: R_X86_64_PLT32\tmemcpy-0x4'
INSTRUCTION = re.compile(r'^ +([0-9a-f]+):\t(?:(?:rep|repz|repnz|lock|notrack|data16|cs) )*(\S+)\s*(.*)$')
RELOCATION = re.compile(r'^\t+([0-9a-f]+): (R_X86_64_\w+)\t(.+?)(?:[-+]0x[0-9a-f]+)?$')
TARGET = re.compile(r'^([0-9a-f]+) <')
BELOW = re.compile(r'-0x([0-9a-f]+)\(%rsp\)')


class Function:
    """One function: its instructions by address, each with its mnemonic, operands and what it refers to."""

    def __init__(self, name):
        self.name = name
        self.code = {}

    def red_zone(self):
        """How far below the stack pointer it reads or writes."""
        return max((int(found, 16) for _, operands, _ in self.code.values() for found in BELOW.findall(operands)), default=0)

    def depths(self):
        """For each address how many bytes the stack pointer stands below the return address; `calls` by name, each with its depth."""
        order = sorted(self.code)
        follower = dict(zip(order, order[1:], strict=False))
        depth, calls = {}, []
        waiting = [(order[0], 0)]
        while waiting:
            while waiting:
                self.walk(*waiting.pop(), depth, calls, follower, waiting)
            # blocks that only a table of jumps leads to: the jump leaves the stack pointer as it is
            unreached = [at for at in order if at not in depth]
            by_table = {depth[at] for at in depth if self.code[at][0] == 'jmp' and self.code[at][1].startswith('*')}
            if unreached and by_table:
                if len(by_table) > 1:
                    raise ValueError(f'{self.name}: tables of jumps at depths {by_table}')
                waiting = [(unreached[0], min(by_table))]
        return depth, calls

    def walk(self, at, below, depth, calls, follower, waiting):
        while at is not None and at not in depth:
            depth[at] = below
            mnemonic, operands, symbol = self.code[at]
            if mnemonic.startswith('call'):
                if symbol is None:
                    raise ValueError(f'{self.name}: a call by pointer at {at:x}')
                calls.append((symbol, below + 8))
            elif mnemonic == 'jmp' and symbol is not None and not operands.startswith('*'):
                # a call that never comes back here: the frame is gone by then
                calls.append((symbol, below))
                return
            elif mnemonic.startswith('j') and not operands.startswith('*'):
                waiting.append((int(TARGET.match(operands)[1], 16), below))
            below = self.moved(at, mnemonic, operands, below)
            if mnemonic in ('ret', 'retq', 'jmp', 'ud2', 'hlt', 'int3'):
                return
            at = follower.get(at)

    def moved(self, at, mnemonic, operands, below):
        """The depth after an instruction."""
        amount = re.match(r'^\$(-?0x[0-9a-f]+),%rsp$', operands)
        if mnemonic.startswith('push'):
            return below + 8
        if mnemonic.startswith('pop'):
            return below - 8
        if mnemonic.startswith(('sub', 'add')) and amount:
            signed = int(amount[1], 16)
            signed -= (signed >> 63) << 64
            return below + (signed if mnemonic.startswith('sub') else -signed)
        writes = operands.endswith(',%rsp') and not mnemonic.startswith(('cmp', 'test'))
        if writes or mnemonic in ('leave', 'leaveq', 'enter'):
            raise ValueError(f'{self.name}: {mnemonic} {operands} at {at:x} moves the stack pointer')
        return below


def functions(archive):
    """All functions of an archive by name."""
    # each function stands in a section of its own, so that names and addresses belong together
    text = subprocess.run(['objdump', '-dr', '--no-show-raw-insn', archive], capture_output=True, text=True, check=True).stdout
    found, here, last = {}, None, None
    for line in text.splitlines():
        title = re.match(r'^[0-9a-f]+ <(.*)>:$', line)
        instruction, relocation = INSTRUCTION.match(line), RELOCATION.match(line)
        if title:
            here = found.setdefault(title[1], Function(title[1]))
        elif instruction:
            last = int(instruction[1], 16)
            here.code[last] = (instruction[2], instruction[3].split(' #')[0].strip(), None)
        elif relocation and relocation[3] and not relocation[3].startswith('.rodata'):
            mnemonic, operands, _ = here.code[last]
            symbol = relocation[3].removeprefix('.text.')
            here.code[last] = (mnemonic, operands, symbol)
    return found


def bounds(found):
    """For each function the bytes of stack that a call takes, its return address included; memcpy's and memset's own frames are not."""
    known = {name: 8 for name in OUTSIDE}
    busy = set()

    def bound(name):
        if name not in known:
            if name in busy:
                raise ValueError(f'{name} calls itself')
            busy.add(name)
            function = found[name]
            depth, calls = function.depths()
            deepest = max(depth.values()) + function.red_zone()
            # the return address of a call stands in its depth and in the bound of the function that is called
            known[name] = 8 + max([deepest] + [at - 8 + bound(called) for called, at in calls])
        return known[name]

    return {name: bound(name) for name in found}
