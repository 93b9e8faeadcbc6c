"""What tests/explain is made of: cases, a program that answers what a case wants, and a browser that is driven."""

import pathlib
import sys

sys.path.insert(0, str(pathlib.Path(__file__).resolve().parent.parent.parent / 'bin'))
