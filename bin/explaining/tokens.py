"""The text of a C file: its lines as they are shown, and its tokens with their places (docs/LANGUAGE.md)."""
import re, unicodedata
from typing import NamedTuple

INCLUDE = rb'#[ \t\r]*i[ \t\r]*n[^\n]*'
PASSED = re.compile(rb'[ \t\n\v\f\r]+|//[^\n]*|/\*(?s:.*?)\*/')
TOKEN = re.compile(
    rb'''(?P<word>[A-Za-z_][A-Za-z_0-9]*)|(?P<number>[0-9][A-Za-z_0-9.]*)
    |(?P<mark>->|==|!=|&&|\|\||[{}();,*=!])|(?P<quoted>"(?:[^"\\\n]|\\[^\n])*"|'(?:[^'\\\n]|\\[^\n])*')
    |(?P<hash>\#)|(?P<refused>.)''',
    re.VERBOSE,
)


class Token(NamedTuple):
    kind: str
    text: str
    line: int
    column: int
    offset: int


class Source:
    """A file's bytes. Lines count from 1, and only a newline begins one; columns count from 1, in bytes."""

    def __init__(self, name, text):
        self.name, self.bytes, self.lines = name, text, text.split(b'\n')
        if len(self.lines) > 1 and self.lines[-1] == b'':
            self.lines.pop()

    def line(self, number):
        """A line as it is shown: without signs that a terminal would obey."""
        return shown(self.lines[number - 1].rstrip(b'\r')) if 0 < number <= len(self.lines) else ''

    def first_column(self, number):
        """The column of a line's first sign that is no blank."""
        line = self.lines[number - 1] if 0 < number <= len(self.lines) else b''
        return len(line) - len(line.lstrip(b' \t\v\f\r')) + 1 if line.strip() else 1

    def caret(self, number, column, length=1):
        """What stands below a shown line, so that its caret is below the column; tabs stay tabs."""
        line = self.lines[number - 1] if 0 < number <= len(self.lines) else b''
        before, at = shown(line[: column - 1]), shown(line[column - 1 : column - 1 + max(1, length)])
        blanks = ''.join('\t' if it == '\t' else ' ' * width(it) for it in before)
        return blanks + '^' + '~' * (sum(map(width, at)) - 1)

    def character(self, number, column):
        """A column in characters in place of bytes, as editors count it."""
        line = self.lines[number - 1] if 0 < number <= len(self.lines) else b''
        return len(line[: column - 1].decode('utf-8', 'replace')) + max(0, column - 1 - len(line)) + 1

    def tokens(self):
        """The tokens of the file; bytes with which none begins are of the kind `refused`."""
        found, at, line, begun, text = [], 0, 1, 0, self.bytes
        while at < len(text):
            passed = PASSED.match(text, at)
            token = passed or TOKEN.match(text, at)
            if not passed and token.lastgroup == 'hash' and is_include(text, at, begun):
                token = re.compile(rb'[^\n]*').match(text, at)
            elif not passed:
                found.append(Token(token.lastgroup, token[0].decode('latin-1'), line, at - begun + 1, at))
            newlines = token[0].count(b'\n')
            if newlines:
                line, begun = line + newlines, at + token[0].rfind(b'\n') + 1
            at = token.end()
        return found

    def token_at(self, number, column):
        """The bytes of the token that begins at a place; one byte where none does, and nothing behind the end."""
        line = self.lines[number - 1] if 0 < number <= len(self.lines) else b''
        rest = line[column - 1 :]
        found = TOKEN.match(rest)
        return found[0] if found else rest[:1]


def is_include(text, at, begun):
    """Whether the `#` at a place begins an include line that is passed over."""
    line = text[begun:].split(b'\n', 1)[0]
    packed = bytes(it for it in line if it not in b' \t\r')
    return not text[begun:at].strip(b' \t') and re.fullmatch(
        rb'#include<std(lib|def|bool)\.h>|#include<assert\.h>', packed
    )


def shown(text):
    """Bytes as they are shown: UTF-8, tabs, and a sign in the place of each control character."""
    decoded = text.decode('utf-8', 'replace') if isinstance(text, bytes) else text
    if decoded.isprintable():
        return decoded
    return ''.join(it if it == '\t' or it.isprintable() else '\ufffd' for it in decoded)


def width(sign):
    """How many columns of a terminal a sign takes."""
    if unicodedata.combining(sign):
        return 0
    return 2 if unicodedata.east_asian_width(sign) in 'WF' else 1
