"""Tells where a text has marks that are not of the language, or that the parser's tree does not show: brackets
around operands, semicolons that stand alone."""

import re

TOKEN = re.compile(r'"(?:[^"\\\n]|\\.)*"|\'(?:[^\'\\\n]|\\.)*\'|\w+|->|==|!=|&&|\|\||\S')
TESTS = {"if", "while", "for", "assert"}
REFUSED = re.compile(r"[&\[\].+\-/%<>~^|?:#\"']|union|goto|switch|case|default|char|short|long|float|double|signed|"
                     r"unsigned|bool|_Bool|_Complex|static|volatile|const|register|auto|inline|restrict|typedef|"
                     r"(?!(?:\d|1[0-5])\Z)\d\w*")
KNOWN = re.compile(r"[A-Za-z_]\w*|\d+|->|==|!=|&&|\|\||[{}();,*=!]", re.ASCII)
MOST = 65535
STARTS = {"struct", "enum", "int", "void", "extern"}


def has_plain_marks(text):
    """Whether all brackets and semicolons stand where the language has them."""
    tokens = TOKEN.findall(text)
    if len(tokens) > MOST or any(REFUSED.fullmatch(token) or not KNOWN.fullmatch(token) for token in set(tokens)):
        return False
    stack, before, start = [], "", True
    for place, token in enumerate(tokens):
        if not stack and start and token not in STARTS:
            return False
        start = False
        after = tokens[place + 1] if place + 1 < len(tokens) else ""
        if token == "(":
            kind = bracket(tokens, place, before, stack)
            if kind is None:
                return False
            stack.append(kind)
        elif token == "{":
            outside = not stack or stack[-1] == "fields"
            stack.append("fields" if outside and before != ")" else "block")
        elif token in (")", "}"):
            kind = stack.pop() if stack else None
            if kind == "group" and after not in (")", "&&", "||", ";"):
                return False
            start = token == "}" and not stack and kind == "block"
        elif token == ";":
            if before in (";", "{", "}", "") and (not stack and before != "}" or stack and stack[-1] == "fields"):
                return False
            start = not stack
        before = token
    return True


def bracket(tokens, place, before, stack):
    """What kind of bracket opens here; None for one that the language does not have."""
    if before in TESTS:
        return "test"
    if before == "sizeof" or re.fullmatch(r"[A-Za-z_]\w*", before) and before not in ("return", "else", "do"):
        return "call"
    if before == "=" and tokens[place + 1:place + 2] == ["struct"] and tokens[place + 3:place + 5] == ["*", ")"]:
        return "call"
    inside = stack and stack[-1] in ("test", "group")
    return "group" if inside and before in ("(", "!", "&&", "||", ";") else None
