"""The folders whose modules import each other, put on Python's path: python3 -m tests.lists.make_kvm, python3 -m unittest tests.unit.test_model."""
from pathlib import Path
import sys

for folder in 'model', 'lists', 'gate':
    sys.path.append(str(Path(__file__).resolve().parent / folder))
