"""Files that bin/adapt adapts to the language first; what is found is told of the file's own lines."""

import json
import os
import subprocess
import sys
from dataclasses import dataclass

from .program import TOP

# what runs the adapter: a Python that has what it wants, and prints what it found as JSON
SCRIPT = '''
import json, sys
sys.path.insert(0, sys.argv[1])
from adapting.command import deep
from adapting.adapter import adapt
from adapting.notes import Refused
def work():
    try:
        it = adapt(sys.argv[2])
    except Refused as refused:
        return {"refused": refused.places}
    except OSError as failed:
        return {"unread": failed.strerror}
    return {"text": it.text, "lines": sorted(it.lines.items()), "forgotten": it.forgotten,
            "assertions": it.assertions, "changed": it.changed}
print(json.dumps(deep(work)))
'''
PYTHONS = (sys.executable, '/usr/bin/python3')


class Unadapted(Exception):
    """The adapter is not here, or failed."""


@dataclass
class Adapted:
    text: str = ''
    lines: dict = None  # of each line of the text that of the file
    forgotten: list = ()  # (line, what)
    assertions: list = ()  # the lines of those that were left out
    changed: bool = False
    refused: list = ()  # (line, reason)
    unread: str = None


def adapt(path, folder=TOP / 'bin'):
    if not (folder / 'adapting').is_dir():
        raise Unadapted('--adapt wants bin/adapt, which is not here')
    said = ''
    for python in PYTHONS:
        try:
            run = subprocess.run(
                [python, '-c', SCRIPT, str(folder), path], capture_output=True, timeout=600, stdin=subprocess.DEVNULL
            )
        except (OSError, subprocess.TimeoutExpired) as failed:
            said = said or str(failed)
            continue
        if run.returncode == 0:
            told = json.loads(run.stdout)
            if not isinstance(told, dict):
                raise Unadapted('--adapt: the adapter failed')
            return Adapted(**{**told, 'lines': dict(told.get('lines', ()))})
        said = run.stderr.decode('utf-8', 'replace').strip().split('\n')[-1]
        if 'pycparser' not in said:
            break
    raise Unadapted(f'--adapt: {said}' + (': install the package python3-pycparser' if 'pycparser' in said else ''))


def write_adapted(adapted, path, folder):
    """The adapted text in a folder, under the file's own name."""
    out = os.path.join(folder, os.path.basename(path) or 'file.c')
    with open(out, 'wb') as file:
        file.write(adapted.text.encode('utf-8', 'surrogateescape'))
    return out


def sentences(adapted, verdict):
    """What is to be said beside an answer."""
    if not adapted.changed:
        return []
    told = ['the file was adapted by bin/adapt, which is not proved']
    if adapted.forgotten:
        places = ', '.join(f'{what} at line {line}' for line, what in adapted.forgotten)
        told.append(f'forgotten were {places}: what they decide is a choice')
    if adapted.assertions:
        lines = ', '.join(map(str, adapted.assertions))
        told.append(
            f'SAFE but for the assertions of lines {lines}'
            if verdict == 'SAFE'
            else f'left out are the assertions of lines {lines}'
        )
    if verdict == 'UNSAFE' and adapted.forgotten:
        told.append('the run may take a choice that the file itself never takes')
    return told
