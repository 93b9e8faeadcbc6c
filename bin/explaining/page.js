const facts = JSON.parse(document.getElementById('facts').textContent);
const MARKS = {SAFE: '\u2713 SAFE', UNSAFE: '\u2717 UNSAFE', UNKNOWN: '? UNKNOWN'};

/* An element with text, attributes and children; nothing of the file is read as HTML. */
function made(name, attributes, ...children) {
  const it = document.createElement(name);
  for (const [key, value] of Object.entries(attributes || {})) {
    if (key.startsWith('on')) it.addEventListener(key.slice(2), value);
    else it.setAttribute(key, value);
  }
  it.append(...children);
  return it;
}

function byId(id) { return document.getElementById(id); }

function start() {
  document.body.classList.add(facts.verdict.replace(/\W/g, '_'));
  byId('verdict').textContent = MARKS[facts.verdict] || facts.verdict;
  byId('file').textContent = facts.file + (facts.line ? ':' + facts.line : '');
  byId('message').textContent = facts.message;
  for (const text of facts.sentences) byId('sentences').append(made('li', {}, text));
  for (const text of facts.help) byId('sentences').append(made('li', {}, 'try: ' + text));
  for (const text of facts.ladder || []) byId('sentences').append(made('li', {class: 'quiet'}, text));
  const clicked = facts.steps ? startSteps() : facts.states ? startStates() : null;
  if (!clicked) byId('right').append(made('p', {class: 'quiet'}, 'There is no picture of this answer.'));
  drawSource(clicked);
  if (facts.line) light(facts.line);
  if (facts.steps) showStep(facts.steps.length);
  document.body.dataset.ready = 'yes';
}

/* The source, in parts of some lines: those in view at once, the others when there is time. */
const LINES = 200, LINE_HEIGHT = 19.5, parts = [];
let clickedLines = null;

function drawSource(clicked) {
  const source = byId('source');
  clickedLines = clicked;
  for (let begun = 0; begun < facts.source.length; begun += LINES) {
    const count = Math.min(LINES, facts.source.length - begun), part = made('div', {});
    part.style.minHeight = count * LINE_HEIGHT + 'px';
    parts.push(part);
    source.append(part);
  }
  if (!parts.length) source.append(made('p', {class: 'quiet'}, 'the source is not here'));
  else fillPart(0);
  fillLater(0);
}

/* Fills the parts one after the other, and lets the page be used between them. */
function fillLater(from) {
  if (from >= parts.length) return;
  setTimeout(() => { fillPart(from); fillLater(from + 1); }, 5);
}

function fillPart(number) {
  const part = parts[number];
  if (!part || part.childElementCount) return;
  const begun = number * LINES;
  part.append(...facts.source.slice(begun, begun + LINES).map((text, at) => rowOf(begun + at + 1, text)));
}

/* A line; its number is a button where a click does something. */
function rowOf(line, text) {
  const row = made('div', {class: 'row', id: 'L' + line}), code = made('code', {});
  if (clickedLines && clickedLines.lines.has(line)) {
    const says = `line ${line}, ${clickedLines.says(line)}`;
    row.append(made('button', {onclick: () => clickedLines.call(line), 'aria-label': says}, line));
  } else {
    row.append(made('span', {}, line));
  }
  if (line === facts.line && facts.caret) {
    const [from, length] = facts.caret, until = from + length;
    code.append(text.slice(0, from), made('mark', {}, text.slice(from, until) || ' '), text.slice(until));
  } else {
    code.append(text);
  }
  if (line === facts.line) row.classList.add('fault');
  row.append(code);
  return row;
}

/* Lights a line, and brings it into view within the source. */
function light(line) {
  for (const it of document.querySelectorAll('.lit')) it.classList.remove('lit');
  fillPart(Math.floor((line - 1) / LINES));
  const row = byId('L' + line);
  if (!row) return;
  row.classList.add('lit');
  const left = byId('left'), place = row.getBoundingClientRect(), frame = left.getBoundingClientRect();
  if (place.top < frame.top + 20 || place.bottom > frame.bottom - 20) {
    row.scrollIntoView({block: left.scrollHeight > left.clientHeight + 1 ? 'center' : 'nearest'});
  }
}
