"""The page sets and answers of differential/list.txt, which the Rust gave; its head says how it was made and what a line means."""
from pathlib import Path

import model
from vector import build, write

LIST = Path(__file__).resolve().parents[2] / 'differential' / 'list.txt'


def listed():
    """(vector, secure AVIC, the line that the Rust gave) in order."""
    pages = bytearray()
    for number, text in enumerate(LIST.read_text().splitlines(), 1):
        kind, _, rest = text.partition(' ')
        if kind == '#':
            continue
        if kind == 'n':
            size = int(rest)
            pages = pages[:size].ljust(size, b'\0')
        elif kind == 'd':
            start, data = rest.split()
            part = bytes.fromhex(data)
            pages[int(start):int(start) + len(part)] = part
        else:
            asked, answer = rest.split(' = ')
            avic, *room = map(int, asked.split())
            make = {'b': build, 'w': write}[kind]
            yield make(f'line {number}', bytes(pages), *room, secure_avic=bool(avic)), bool(avic), f'{kind} {answer}'


def as_the_rust(vector, secure_avic):
    """The model's line with the Rust's lower figure in B.1.EAX (document 02, P5)."""
    answer = model.build(vector.pages, secure_avic)
    if answer[0] == 'refusal':
        return vector.line
    return vector.line.replace(model.image(answer).hex(), model.image(model.rust_answer(answer)).hex())


def answers_of_the_rust():
    """Every set of the list. The model must answer as the Rust did, but for the shift, and there it must differ."""
    lower = 0
    for vector, secure_avic, by_rust in listed():
        expected = as_the_rust(vector, secure_avic)
        if expected != by_rust:
            raise ValueError(f'{vector.name}: the model gives {expected}, the Rust {by_rust}')
        lower += vector.line != by_rust
        yield vector
    if not lower:
        raise ValueError('no set of the list shows the lower shift of the Rust')


GROUPS = (answers_of_the_rust,)
