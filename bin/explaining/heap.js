/* The heap of a run, step by step: cells as records, fields as arrows. */
const SVG = 'http://www.w3.org/2000/svg', MOST_CELLS = 150, ROW = 20, WIDTH = 130, GAP = 70, TOP = 34;
let shownStep = -1, heap = null, heapStep = 0;

const LEGEND = 'Arrow keys, Home and End go through the steps. Null: a slashed place. Uninitialised: dotted, with ?. ' +
  'Dangling: a broken arrow to \u2717. What the step set is underlined; what no variable leads to has a broken frame.';

function startSteps() {
  const last = facts.steps.length;
  const slider = made('input', {type: 'range', min: 0, max: last, value: last, id: 'slider', 'aria-label': 'step',
    oninput: () => showStep(Number(slider.value))});
  const button = (id, says, by, sign) =>
    made('button', {id, 'aria-label': says, onclick: () => showStep(shownStep + by)}, sign);
  byId('right').append(
    made('div', {class: 'steps'},
      made('div', {}, button('back', 'one step back', -1, '\u25C0'), slider, button('on', 'one step on', 1, '\u25B6')),
      made('div', {id: 'told', role: 'status', 'aria-live': 'polite'})),
    made('div', {class: 'picture', id: 'heap', tabindex: 0, 'aria-label': 'the heap'}),
    made('p', {class: 'legend'}, LEGEND));
  document.addEventListener('keydown', event => {
    if (event.altKey || event.ctrlKey || event.metaKey || event.target === slider) return;
    const to = {ArrowLeft: shownStep - 1, ArrowRight: shownStep + 1, Home: 0, End: last}[event.key];
    if (to === undefined) return;
    event.preventDefault();
    showStep(to);
  });
  return clickedSteps();
}

/* What a click on a line does: it shows the next step there, or the first one. */
function clickedSteps() {
  const lines = new Map();
  facts.steps.forEach((step, at) => {
    if (!lines.has(step.l)) lines.set(step.l, []);
    lines.get(step.l).push(at + 1);
  });
  return {
    lines,
    says: line => `${lines.get(line).length} steps`,
    call: line => showStep(lines.get(line).find(it => it > shownStep) || lines.get(line)[0]),
  };
}

/* Goes on by a step. */
function take(step) {
  for (const [kind, number, name, value] of step.x) {
    if (kind === 'var' || kind === 'data') {
      if (value[0] === 'uninit' || value[0] === 'undef') heap.variables.delete(kind + number);
      else heap.variables.set(kind + number, {name, value});
    } else if (kind === 'new') {
      const fields = (facts.structs[name] || []).map(([field, isPointer]) => [field, [isPointer ? 'uninit' : 'undef']]);
      heap.cells.set(number, {struct: name, fields: new Map(fields)});
    } else if (kind === 'cell' && heap.cells.has(number)) {
      heap.cells.get(number).fields.set(name, value);
    }
  }
  for (const [kind, number] of step.x) if (kind === 'free') heap.cells.delete(number);
}

/* Shows the heap after so many steps; at the last one, which meets the fault, as it was before it. */
function showStep(wanted) {
  const last = facts.steps.length, to = Math.max(0, Math.min(last, wanted));
  if (to === shownStep) return;
  shownStep = to;
  if (!heap || to < heapStep) {
    heap = {variables: new Map(), cells: new Map()};
    heapStep = 0;
  }
  for (; heapStep < to; heapStep++) if (!facts.steps[heapStep].e) take(facts.steps[heapStep]);
  const step = to ? facts.steps[to - 1] : null;
  byId('slider').value = to;
  byId('back').disabled = to === 0;
  byId('on').disabled = to === last;
  byId('told').textContent = step ? stepWords(step) : 'before the first step';
  if (step) light(step.l);
  byId('heap').replaceChildren(drawHeap(step));
}

function stepWords(step) {
  const said = [step.c === undefined ? '' : 'choice ' + step.c, step.t, (step.e || '').replace(/^fault \d+ /, '')];
  return `step ${step.n} of ${facts.steps[facts.steps.length - 1].n}, line ${step.l}` +
    (step.d ? `, ${step.d} call${step.d > 1 ? 's' : ''} deep` : '') + ': ' +
    (said.filter(Boolean).join('; ') || 'nothing changes');
}

function drawn(name, attributes, text) {
  const it = document.createElementNS(SVG, name);
  for (const [key, value] of Object.entries(attributes)) it.setAttribute(key, value);
  if (text !== undefined) it.textContent = text;
  return it;
}

/* Where the cells stand: in columns by how far they are from the variables; those that none leads to come last. */
function placed() {
  const column = new Map();
  let front = [...heap.variables.values()].filter(it => it.value[0] === 'cell').map(it => it.value[1]);
  for (let depth = 0; front.length && column.size < MOST_CELLS; depth++) {
    const next = [];
    for (const cell of front) {
      if (column.has(cell) || !heap.cells.has(cell) || column.size >= MOST_CELLS) continue;
      column.set(cell, depth);
      for (const value of heap.cells.get(cell).fields.values()) if (value[0] === 'cell') next.push(value[1]);
    }
    front = next;
  }
  const reached = new Set(column.keys());
  for (const cell of heap.cells.keys()) {
    if (column.size >= MOST_CELLS) break;
    if (!column.has(cell)) column.set(cell, 0);
  }
  return {column, reached};
}

/* What the step changed, and the place that is bad where it meets the fault. */
function marksOf(step) {
  return (...place) => {
    const isNew = step && step.x.some(it => place.every((part, at) => it[at] === part));
    const isBad = step && step.e && JSON.stringify(facts.bad) === JSON.stringify(place);
    return [isNew ? 'new' : '', isBad ? 'bad' : ''].filter(Boolean).join(' ');
  };
}

function drawHeap(step) {
  const {column, reached} = placed(), marks = marksOf(step), size = {x: 10, y: 40}, arrows = [], places = new Map();
  const svg = drawn('svg', {role: 'img', 'aria-label': 'heap'});
  const names = [...heap.variables.values()].map(it => it.name.length);
  const left = Math.min(260, (Math.max(6, ...names) + 10) * 7.3 + 20);
  svg.append(marker());
  let y = TOP;
  for (const [key, {name, value}] of heap.variables) {
    const kind = key.startsWith('var') ? 'var' : 'data';
    drawPlace(svg, 10, y, left, name, value, arrows, marks(kind, Number(key.slice(kind.length))));
    y += ROW + 8;
  }
  size.y = Math.max(size.y, y);
  const heights = [];
  for (const [cell, at] of column) {
    const x = left + 60 + GAP + at * (WIDTH + GAP), top = heights[at] || TOP;
    places.set(cell, [x, top]);
    heights[at] = drawCell(svg, cell, x, top, arrows, marks, reached.has(cell)) + 22;
    size.x = Math.max(size.x, x + WIDTH + GAP);
    size.y = Math.max(size.y, heights[at] + 8);
  }
  for (const it of arrows) drawArrow(svg, it, places.get(it.cell));
  const more = heap.cells.size - column.size;
  if (more > 0) drawWords(svg, size.y += 20, `${more} more cells are not drawn`);
  if (!heap.variables.size && !heap.cells.size) drawWords(svg, 24, 'nothing is set');
  svg.setAttribute('width', Math.max(size.x, left + 120) + 10);
  svg.setAttribute('height', size.y + 4);
  return svg;
}

function drawWords(svg, y, text) {
  svg.append(drawn('text', {x: 10, y, fill: 'currentColor', 'font-size': 13}, text));
}

function marker() {
  const it = drawn('marker', {id: 'arrow', viewBox: '0 0 8 8', refX: 8, refY: 4, markerWidth: 9, markerHeight: 9,
    orient: 'auto', markerUnits: 'userSpaceOnUse'});
  it.append(drawn('path', {d: 'M0,0 L8,4 L0,8 z', fill: 'currentColor'}));
  return it;
}

/* A cell with its fields; how far down it reaches. */
function drawCell(svg, cell, x, top, arrows, marks, isReached) {
  const {struct, fields} = heap.cells.get(cell);
  const height = ROW * (fields.size + 1);
  const frame = drawn('rect', {x, y: top, width: WIDTH, height, fill: 'none', stroke: 'currentColor'});
  if (!isReached) {
    frame.setAttribute('stroke-dasharray', '7 3');
    frame.setAttribute('class', 'bad');
  }
  svg.append(frame, drawn('text', {x: x + 5, y: top + 14, fill: 'currentColor', 'font-size': 12, 'font-weight': 'bold',
    class: marks('new', cell)}, `${cell}: ${struct}` + (isReached ? '' : ' (lost)')));
  let y = top + ROW;
  for (const [name, value] of fields) {
    drawPlace(svg, x, y, WIDTH, name, value, arrows, marks('cell', cell, name));
    y += ROW;
  }
  return y;
}

/* A variable or field with what it is. */
function drawPlace(svg, x, y, width, name, value, arrows, marks) {
  const kind = value[0], isBad = marks.includes('bad') ? 'bad' : '';
  const frame = drawn('rect', {x, y, width, height: ROW, fill: 'none', stroke: 'currentColor', rx: 2, class: isBad});
  if (kind === 'uninit' || kind === 'undef') frame.setAttribute('stroke-dasharray', '2 3');
  const says = {null: ': null', uninit: ': uninit ?', undef: ': undef ?', dangling: ': dangling', cell: ''};
  const words = name + (says[kind] ?? ` = ${value[1]}`);
  const squeezed = words.length * 7.3 > width - 14 ? {textLength: width - 18, lengthAdjust: 'spacingAndGlyphs'} : {};
  const style = {fill: 'currentColor', 'font-size': 12, class: marks, ...squeezed};
  svg.append(frame, drawn('text', {x: x + 5, y: y + 14, ...style}, words));
  if (kind === 'null') {
    svg.append(drawn('path', {d: `M${x + width - 12},${y + ROW} L${x + width},${y}`, stroke: 'currentColor'}));
  }
  if (kind === 'dangling') {
    svg.append(drawn('path', {d: `M${x + width},${y + ROW / 2} h6 l4,-5 l5,10 l4,-5 h6 m3,-6 l12,12 m0,-12 l-12,12`,
      fill: 'none', stroke: 'currentColor', 'stroke-width': 1.5, class: isBad}));
  }
  if (kind === 'cell') arrows.push({x: x + width, y: y + ROW / 2, cell: value[1], mark: isBad});
}

/* An arrow to a cell: into its left side where it stands further right, its right side in one column, else its top. */
function drawArrow(svg, {x, y, mark}, to) {
  if (!to) {
    svg.append(drawn('text', {x: x + 4, y: y + 4, fill: 'currentColor', 'font-size': 12}, '\u2192 ..'));
    return;
  }
  const [tx, top] = to, ty = top + ROW / 2, right = tx + WIDTH, middle = tx + WIDTH / 2, above = Math.min(top, y) - 22;
  const path = tx > x ? `C${x + 40},${y} ${tx - 40},${ty} ${tx},${ty}`
    : right === x ? `C${x + 45},${y} ${x + 45},${ty} ${x},${ty}`
      : `C${x + 50},${y} ${x + 30},${above} ${x - 20},${above} L${middle + 20},${above} ` +
        `Q${middle},${above} ${middle},${top}`;
  const style = {fill: 'none', stroke: 'currentColor', 'marker-end': 'url(#arrow)', class: mark};
  svg.append(drawn('path', {d: `M${x},${y} ${path}`, ...style}));
}
