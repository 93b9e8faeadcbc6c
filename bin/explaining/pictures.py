"""Pictures of forests and boxes, drawn by Graphviz's `dot`."""
import html, re, shutil, subprocess

from .forests import read_forest

PACKAGE = 'the pictures of abstract states are drawn by dot, which is not here: install the package graphviz'


class Missing(Exception):
    """The program that draws is not here, or does not draw."""


LOOK = '''graph [rankdir=LR,ranksep=0.35,nodesep=0.15,bgcolor="transparent",style=rounded];
graph [fontname="Helvetica",fontsize=10];
node [shape=plain,fontname="Helvetica",fontsize=10]; edge [arrowsize=0.6,fontname="Helvetica",fontsize=9];'''
LEAVES = {'null': 'null', 'uninit': 'uninit ?', 'dangling': 'dangling \u2717'}


def dot_of(lines):
    """A forest or box in the language of dot: records for cells, arrows for fields, double arrows for boxes."""
    forest = read_forest(lines)
    drawn = Drawing(forest)
    return 'digraph {\n' + LOOK + '\n' + '\n'.join(drawn.lines) + '\n}\n'


class Drawing:
    def __init__(self, forest):
        self.forest, self.lines = forest, []
        for number, component in enumerate(forest.components):
            self.component(number, component)
        for kind, number, name, value in forest.variables:
            self.variable(f'{kind}{number}', name, value)

    def variable(self, node, name, value):
        if value.startswith('ref '):
            self.lines.append(
                f'{node} [shape=box,style=rounded,margin="0.06,0.02",height=0.2,width=0.2,label="{name}"];'
            )
            self.lines.append(f'{node} -> {self.top(int(value[4:]))};')
        else:
            text = LEAVES.get(value, value)
            self.lines.append(
                f'{node} [shape=box,style=rounded,margin="0.06,0.02",height=0.2,width=0.2,label="{name}: {text}"];'
            )

    def top(self, number):
        """The node at the top of a component, as the end of an arrow."""
        component = self.forest.components[number] if number < len(self.forest.components) else None
        if component is None:
            return f'none{number}'
        return f't{number}' if len(component.roots) > 1 else self.entry(number, component, component.roots[0])

    def entry(self, number, component, state):
        """The node at which a state is met: its cell, or its alternatives."""
        rules = component.rules.get(state, [])
        if len(rules) == 1 and rules[0].leaf is None:
            return f'c{number}_{state}_0'
        return f'a{number}_{state}'

    def component(self, number, component):
        titles = {0: 'root 0: input', 1: 'root 1: output'} if self.forest.name else {}
        self.lines.append(f'subgraph cluster{number} {{ label="{titles.get(number, f"root {number}")}"; labeljust=l;')
        if len(component.roots) > 1:
            self.lines.append(f't{number} [shape=circle,label="or",margin=0.02];')
        after = (
            [f't{number} -> {self.entry(number, component, it)} [style=dashed];' for it in component.roots]
            if len(component.roots) > 1
            else []
        )
        shown = self.shown_states(component)
        for state, rules in component.rules.items():
            if state in shown:
                after += self.state(number, component, state, rules)
        self.lines.append('}')
        self.lines.extend(after)

    def shown_states(self, component):
        """The states that stand as nodes: those with cells or alternatives. A leaf alone is written into its slot."""
        return {
            state
            for state, rules in component.rules.items()
            if self.leaf_of(component, state) is None or state in component.roots
        }

    def leaf_of(self, component, state):
        rules = component.rules.get(state, [])
        return rules[0].leaf if len(rules) == 1 and rules[0].leaf is not None else None

    def state(self, number, component, state, rules):
        """Draws a state; the arrows that leave its component or lead inside it."""
        arrows, several = [], len(rules) > 1 or rules[0].leaf is not None
        if several:
            self.lines.append(f'a{number}_{state} [shape=circle,width=0.25,margin=0.01,label="or"];')
        for at, rule in enumerate(rules):
            node = f'c{number}_{state}_{at}'
            if rule.leaf is None:
                arrows += self.cell(node, number, component, rule)
            elif rule.leaf.startswith('ref '):
                arrows.append(f'a{number}_{state} -> {self.top(int(rule.leaf[4:]))} [style=dashed];')
                continue
            else:
                self.lines.append(
                    f'{node} [shape=plaintext,margin=0.02,height=0.2,width=0.2,label="{LEAVES[rule.leaf]}"];'
                )
            if several:
                arrows.append(f'a{number}_{state} -> {node} [style=dashed];')
        return arrows

    def cell(self, node, number, component, rule):
        rows, arrows = [f'<tr><td border="0"><b>{html.escape(rule.struct)}</b></td></tr>'], []
        for name, value in rule.data:
            rows.append(f'<tr><td align="left">{name} = {value}</td></tr>')
        for at, slot in enumerate(rule.slots):
            leaf = self.leaf_of(component, slot.child) if slot.child else None
            text = ('box ' if slot.is_box else '') + slot.name
            style = 'color="black:invis:black",arrowhead=normal,arrowsize=0.8' if slot.is_box else ''
            if leaf is not None and leaf.startswith('ref '):
                arrows.append(f'{node}:p{at}:e -> {self.top(int(leaf[4:]))} [{style}];')
            elif leaf is not None:
                text += f': {LEAVES.get(leaf, leaf)}'
            elif slot.child:
                arrows.append(f'{node}:p{at}:e -> {self.entry(number, component, slot.child)} [{style}];')
            rows.append(f'<tr><td align="left" port="p{at}">{html.escape(text)}</td></tr>')
        self.lines.append(
            (
                f'{node} [label=<<table border="1" cellborder="1" '
                f'cellspacing="0" cellpadding="2">{"".join(rows)}</table>>];'
            )
        )
        return arrows


def draw(texts):
    """The pictures of several forests or boxes, each given by its lines, as SVG elements."""
    if not texts:
        return []
    dot = shutil.which('dot')
    if dot is None:
        raise Missing(PACKAGE)
    graphs = ''.join(dot_of(it) for it in texts)
    try:
        drawn = subprocess.run([dot, '-Tsvg'], input=graphs.encode(), capture_output=True, timeout=600)
    except (OSError, subprocess.TimeoutExpired) as failed:
        raise Missing(f'dot does not draw: {failed}') from failed
    pictures = re.findall(r'<svg .*?</svg>', drawn.stdout.decode('utf-8', 'replace'), re.DOTALL)
    if len(pictures) != len(texts):
        raise Missing(f'dot does not draw: {drawn.stderr.decode("utf-8", "replace").strip()[:300]}')
    return [small(it) for it in pictures]


def small(picture):
    """A picture that takes the colour of the page around it, without what is not wanted there."""
    for pattern, by in (
        (r'<!--.*?-->', ''),
        (r'<title>.*?</title>', ''),
        (r' xmlns(:xlink)?="[^"]*"', ''),
        (r' (id|class|font-family|text-anchor="start" xml:space)="[^"]*"', ''),
        (r'"black"', '"currentColor"'),
        (r' fill="(transparent|white)"', ' fill="none"'),
        (r' stroke="transparent"', ' stroke="none"'),
        (r'(\d+\.\d)\d+', r'\1'),
        (r'>\s+<', '><'),
    ):
        picture = re.sub(pattern, by, picture, flags=re.DOTALL)
    return re.sub(r'<text (?![^>]*fill=)', '<text fill="currentColor" ', picture).strip()
