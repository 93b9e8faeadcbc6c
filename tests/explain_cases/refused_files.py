"""Files, each of which breaks one rule first: the rule, the text, and the place, worked out from docs/LANGUAGE.md.

In a text the mark @ stands before the refused place, and is taken out of it.
"""

NODE = 'struct n { struct n *x; struct n *y; int d; };\n'


def main(body, before=NODE):
    return f'{before}int main(void) {{\n{body}\n}}\n'


def many(count, form, start=0):
    return ''.join(form.format(at) for at in range(start, start + count))


FILES = [
    ('L1', main('  @`')),
    ('L2', main('  return 0; @/* open')),
    ('P1', main('  struct n *p = @&q;')),
    ('P2', main('  int a@[3];')),
    ('P3', '@union u { int a; };\n' + main('')),
    ('P4', main('  int a = 1; a = a @+ 1;')),
    ('P5', main('\t@goto out;')),
    ('P6', main('  @char c;')),
    ('P7', main('  f(@"a<b>&");')),
    ('P8', '@#define X 3\n' + main('')),
    ('P9', NODE + '@static int f(void) { return 1; }\n' + main('', '')),
    ('P10', main('  int a = @16;')),
    ('S1', main('  int a = @;')),
    ('S2', main('{' * 63 + '@{' + '}' * 64)),
    ('T1', main('  struct @m *p = NULL;')),
    ('T2', main('  struct n *p = NULL; p->@z = NULL;')),
    ('T3', main('  @q = 1;')),
    ('T4', main('  enum @e a = 1;')),
    ('T5', main('  int a = 1; int @a = 2;')),
    ('T6', main('  struct n *p = NULL; struct m *q = NULL; p = @q;', NODE + 'struct m { struct m *x; };\n')),
    ('T7', main('  struct n *p = NULL; int a = 1; p = @a;')),
    ('T8', main('  int a = @NULL;')),
    ('T9', main('  int a = 1; a@->x = NULL;')),
    ('T10', main('  struct n *p = malloc(@sizeof(struct m));', NODE + 'struct m { struct m *x; };\n')),
    ('T11', main('  @break;')),
    ('T12', NODE + '@'),
    ('T13', NODE + 'void f(void) { @f(); }\n' + main('  f();', '')),
    ('T14', NODE + 'int @g = 1;\n' + main('', '')),
    ('T15', main('  @g();')),
    ('T16', NODE + 'void f(void) { @return 1; }\n' + main('  f();', '')),
    ('T17', NODE + 'void f(int a) { }\n' + main('  @f();', '')),
    ('K2', many(32, 'struct s{0} {{ struct s{0} *x; }};\n') + 'struct @s32 { struct s0 *x; };\n' + main('', '')),
    ('K3', 'struct w { ' + many(16, 'int f{}; ') + 'int @f16; };\n' + main('', '')),
    ('K4', main(many(64, '  int v{};\n') + '  int @v64;')),
    ('K5', 'enum e { ' + many(16, 'a{}, ') + '@a16 };\n' + main('', '')),
    ('K7', main(';' * 4096 + '@;')),
    ('K8', 'int main(void) {\n  assert(1' + ' && 1' * 32763 + '@);\n}\n'),
    ('K9', 'void f(void) { ' + ';' * 1024 + ' }\nint @main(void) {\n' + 'f();\n' * 16 + '}\n'),
    ('K10', many(64, 'void f{}(void) {{ }}\n') + 'int @main(void) { }\n'),
]

# of files of boxes: the rule, the line, and the text; the program is that of PROGRAM
PROGRAM = NODE + 'int main(void) { return 0; }\n'
BOX = 'box {} in n out n\nroot 0 s0\ns0 = n(x=s1)\ns1 = ref 1\nroot 1 s0\ns0 = n(y=s1)\ns1 = ref 0\nend\n'
BOXES = [
    ('B1', 1, 'bax\n'),
    ('B2', 1, BOX.format('b').replace('in n', 'in m')),
    ('B3', 3, BOX.format('b').replace('x=s1', '@c=s1')),
    ('B4', 1, 'box b in n out n\nroot 0 s0\ns0 = n(y=s1,x=s1)\ns1 = ref 1\nroot 1 s0\ns0 = n()\nend\n'),
    ('B5', 1, 'box b in n out n\nroot 0 s0\ns0 = null\nroot 1 s0\ns0 = n()\nend\n'),
    ('B6', 1, 'box b in n out n\nroot 0 s0\ns0 = n(x=s1)\ns1 = null\nroot 1 s0\ns0 = n()\nend\n'),
    ('B7', 1, 'box b in n out n\nroot 0 s0\ns0 = n(x=s1)\ns1 = ref 1\nroot 1 s0\nend\n'),
    ('K6', 257, ''.join(BOX.format(f'b{at}') for at in range(33))),
]


def place_of(text):
    """A text without its mark, the line and the column of the mark, and the word there."""
    at = text.index('@')
    text = text[:at] + text[at + 1 :]
    begun = text.rfind('\n', 0, at) + 1
    return text, text.count('\n', 0, at) + 1, at - begun + 1
