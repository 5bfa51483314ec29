"""The completions, in real shells (Debian packages bash, zsh and fish): bash and zsh are typed into at a terminal, fish is asked."""
import os
import pty
import re
import select
import shutil
import subprocess
import time
import unittest
from pathlib import Path

from trees import Tree

# a file to complete, with a space in its name
FILE = 'epyc milan.pages'
# once this is printed the shell reads keys
PROMPT = '<<>>'


def needs(shell):
    return unittest.skipUnless(shutil.which(shell), f'{shell} is not installed (apt-get install {shell})')


class Terminal:
    """A shell at a terminal, in which snp-cpuid prints what it was given in place of running."""

    def __init__(self, words, folder, begin):
        self.said = b''
        child, self.end = pty.fork()
        if child == 0:
            os.chdir(folder)
            os.execvpe(words[0], words, {'PATH': os.environ['PATH'], 'HOME': folder, 'TERM': 'dumb', 'PS1': PROMPT, 'LC_ALL': 'C'})
        self.child = child
        self.type(f"{begin}\nsnp-cpuid() {{ printf 'got<%s>\\n' \"$@\"; printf 'end<%s>\\n' $#; }}\n")
        self.type('snp-cpuid ready\n')
        self.until('end<1>')
        self.until(PROMPT)

    def type(self, text):
        os.write(self.end, text.encode())

    def until(self, mark):
        """What was printed up to a mark; the terminal's own escapes are left out."""
        limit = time.monotonic() + 20
        while mark.encode() not in self.said:
            if time.monotonic() > limit or not select.select([self.end], [], [], 20)[0]:
                raise AssertionError(f'{mark} does not come: {self.said!r}')
            self.said += os.read(self.end, 4096)
        before, self.said = self.said.split(mark.encode(), 1)
        return re.sub(r'\x1b\[[0-9;?]*[a-zA-Z]|\r', '', before.decode())

    def complete(self, line, count):
        """The words that come of a line with a tab at its end; so many are awaited."""
        self.type(line + '\t\n')
        words = re.findall(r'got<(.*?)>', self.until(f'end<{count}>'))
        self.until(PROMPT)
        return words

    def close(self):
        os.close(self.end)
        os.kill(self.child, 9)
        os.waitpid(self.child, 0)


class Shells(unittest.TestCase):
    @classmethod
    def setUpClass(cls):
        cls.tree = Tree()
        cls.addClassCleanup(cls.tree.close)
        cls.room = Path(cls.tree.room.name, 'room')
        cls.room.mkdir()
        (cls.room / FILE).touch()
        commands = cls.tree.run('help').split('\nCommands:\n')[1].split('\n\n')[0].splitlines()
        cls.commands = [line.split()[0] for line in commands if not line.startswith('   ')]

    def options(self, command):
        """The options of a command, by its help."""
        lines = self.tree.run('help', command).splitlines()
        labels = [line.strip().split('  ')[0] for line in lines if line.startswith('  -')]
        return {word.strip(',') for label in labels for word in label.split() if word.startswith('-')}

    def program_options(self):
        """The options of the program itself, by its help."""
        lines = self.tree.run('help').split('\nOptions:\n')[1].split('\n\n')[0].splitlines()
        return {word.strip(',') for line in lines for word in line.split('   ')[0].split() if word.startswith('-')}

    def typed(self, terminal):
        self.addCleanup(terminal.close)
        self.assertEqual(terminal.complete('snp-cpuid expl', 1), ['explain'])
        self.assertEqual(terminal.complete('snp-cpuid help topo', 2), ['help', 'topologies'])
        self.assertEqual(terminal.complete('snp-cpuid table epy', 2), ['table', FILE])
        self.assertEqual(terminal.complete('snp-cpuid image epy\t--outp\tepy', 4), ['image', FILE, '--output', FILE])
        self.assertEqual(terminal.complete('snp-cpuid completion fi', 2), ['completion', 'fish'])
        self.assertEqual(terminal.complete('snp-cpuid completion fish -o epy', 4), ['completion', 'fish', '-o', FILE])

    @needs('bash')
    def test_bash(self):
        script = self.tree.prefix / 'share/bash-completion/completions/snp-cpuid'
        self.typed(Terminal(['bash', '--noprofile', '--norc', '-i'], self.room, f"source '{script}'; bind 'set bell-style none'"))

    @needs('zsh')
    def test_zsh(self):
        functions = self.tree.prefix / 'share/zsh/site-functions'
        begin = f"unsetopt beep prompt_cr; fpath=('{functions}' $fpath); autoload -U compinit; compinit -u -D"
        self.typed(Terminal(['zsh', '-f', '-i'], self.room, begin))

    @needs('bash')
    def test_bash_knows_every_command_and_option(self):
        script = self.tree.prefix / 'share/bash-completion/completions/snp-cpuid'

        def asked(*words):
            ask = f'source "$0"; COMP_WORDS=("$@"); COMP_CWORD=$(($# - 1)); _snp_cpuid; printf "%s\\n" "${{COMPREPLY[@]}}"'
            return set(subprocess.run(['bash', '-c', ask, script, 'snp-cpuid', *words], capture_output=True, text=True, check=True).stdout.split())

        self.assertEqual(asked(''), set(self.commands))
        self.assertEqual(asked('-'), self.program_options())
        for command in self.commands:
            if command != 'help':
                self.assertEqual(asked(command, '-'), self.options(command), command)
                self.assertEqual(asked('help', command), {name for name in self.commands if name.startswith(command) and name != 'help'})

    @needs('fish')
    def test_fish_knows_every_command_and_option(self):
        script = self.tree.prefix / 'share/fish/vendor_completions.d/snp-cpuid.fish'

        def asked(*lines):
            """The words that each line may end in."""
            ask = f"source '{script}'\n" + ''.join(f"complete -C '{line}'; echo =\n" for line in lines)
            environment = {**os.environ, 'HOME': str(self.room), 'XDG_CONFIG_HOME': str(self.room)}
            ran = subprocess.run(['fish', '--no-config', '-c', ask], cwd=self.room, env=environment, capture_output=True, text=True, check=True)
            return [{line.split('\t')[0] for line in part.splitlines()} for part in ran.stdout.split('=\n')[:-1]]

        one, none, two, *others = asked(*(f'snp-cpuid {words}' for words in ('', '-', 'help t', 'table ep', 'image x -o ep', 'completion ')))
        self.assertEqual(one, set(self.commands))
        self.assertEqual(none, self.program_options())
        self.assertEqual(two, {name for name in self.commands if name.startswith('t')})
        self.assertEqual(others, [{FILE}, {FILE}, {'bash', 'zsh', 'fish'}])
        plain = [command for command in self.commands if command != 'help']
        for command, found in zip(plain, asked(*(f'snp-cpuid {command} -' for command in plain)), strict=True):
            self.assertEqual(found, self.options(command), command)

    def test_zsh_knows_every_option(self):
        text = (self.tree.prefix / 'share/zsh/site-functions/_snp-cpuid').read_text()
        self.assertEqual(set(re.search(r'compadd -- (-.*?);', text)[1].split()), self.program_options())
        for command in self.commands:
            if command != 'help':
                arm = text.split(f'    {command})\n')[1].split(' ;;\n')[0]
                self.assertEqual(set(re.findall(r'\)(-[-\w]+)\[', arm)), self.options(command), command)


if __name__ == '__main__':
    unittest.main()
