"""Refusals: where they stand, the word there, and of words that no program may use all that the file has."""
import os, tempfile
from typing import NamedTuple

from .reports import read_refusal
from .tokens import Source, shown

MOST = 20


class Place(NamedTuple):
    rule: str
    line: int
    column: int
    word: str


def word_at(source, line, column):
    """The word at a place as it is quoted, or what is there in place of one."""
    word = shown(source.token_at(line, column))
    if not word.strip():
        return ''
    return word if len(word) <= 40 else word[:40] + '..'


def all_refused_words(program, source, refusal):
    """The places of all words that no program may use, by blanking each and asking again; whether these are all."""
    found, text = [], bytearray(source.bytes)
    with tempfile.TemporaryDirectory() as folder:
        path = os.path.join(folder, 'file.c')
        while refusal and refusal.rule.startswith('P') and not refusal.of_boxes:
            if len(found) > MOST:
                return found[: MOST + 1], False
            place = Place(refusal.rule, refusal.line, refusal.column, word_at(source, refusal.line, refusal.column))
            if found and place == found[-1]:
                return found, False
            found.append(place)
            blank(text, source, place)
            with open(path, 'wb') as file:
                file.write(text)
            answer = program.call(['verify', path, '--steps', '1'], 60)
            refusal = read_refusal(answer.notes) if answer.status == 4 else None
    return found, True


def blank(text, source, place):
    """Puts blanks in the place of the word, or of the line where it begins with a `#`."""
    begun = sum(len(it) + 1 for it in source.lines[: place.line - 1])
    at = begun + place.column - 1
    if place.rule == 'P8':
        length = len(source.lines[place.line - 1]) - place.column + 1
    else:
        length = max(1, len(source.token_at(place.line, place.column)))
    text[at : at + length] = b' ' * length


def read_source(path, most=1_048_577):
    """A file's text, and the system's word where it was not read; a pipe was read already, and is not read again."""
    try:
        if not os.path.isfile(path) and os.path.exists(path) and not os.path.isdir(path):
            return Source(path, b''), None
        with open(path, 'rb') as file:
            return Source(path, file.read(most)), None
    except OSError as failed:
        return Source(path, b''), failed.strerror
