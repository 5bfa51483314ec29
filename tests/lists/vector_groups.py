"""Every vector of crates/vectors, file by file and group by group; make_vectors.py turns them into the program's input and output.

A file of vectors has GROUPS, functions that each yield the vectors of one paragraph (vector.py). A new file is one new line here.
"""
from importlib import import_module

FILES = (
    'vectors_document_01',
    'vectors_editions',
    'vectors_reserved',
    'vectors_origins',
    'rust_list',
)


def vectors():
    for file in FILES:
        for group in import_module(file).GROUPS:
            for vector in group():
                yield vector._replace(name=f'{group.__name__}: {vector.name}')
