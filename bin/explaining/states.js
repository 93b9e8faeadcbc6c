/* The abstract states, by location: loop heads first, or those at a line that was clicked. */
const AT_ONCE = 30;

const STATES_LEGEND = 'Click the number of a line to see those there. Frames are roots, records cells, ' +
  '\u201Cor\u201D alternatives, double arrows boxes.';

/* A state of the table by names: see states_of in pages.py. */
function stateOf([number, location, parent, line, choice, isHead, folds, picture]) {
  return {number, location, parent, line, choice, isHead, folds, picture};
}

function startStates() {
  facts.states.table = facts.states.table.map(stateOf);
  const lines = new Map();
  for (const state of facts.states.table) {
    const line = lineOf(state);
    if (!line) continue;
    if (!lines.has(line)) lines.set(line, []);
    lines.get(line).push(state);
  }
  showBoxes();
  if (facts.states.trace.length) {
    byId('right').append(made('button', {id: 'trace', onclick: showTrace}, 'show the trace'));
  }
  byId('right').append(made('div', {id: 'list'}));
  showHeads();
  return {
    lines,
    says: line => `${lines.get(line).length} abstract states`,
    call: line => { light(line); showStates(`Line ${line}`, lines.get(line)); byId('where').focus(); },
  };
}

/* The line at which a state's step begins, or that of the step that led to it where no printed state came from it. */
function lineOf(state) { return facts.states.starts[state.location] || state.line; }

function showBoxes() {
  for (const [name, picture, folds] of facts.states.boxes) {
    const told = folds ? `folded ${folds} time${folds > 1 ? 's' : ''}` : 'never folded';
    byId('right').append(made('h3', {}, `box ${name}: ${told}`), pictureOf(picture));
  }
}

function showHeads() {
  const {table, count} = facts.states;
  showStates('Loop heads', table.filter(it => it.isHead), `${count} abstract states in all. ${STATES_LEGEND}`);
}

function showStates(title, states, legend) {
  const list = byId('list'), many = `${states.length} abstract state${states.length === 1 ? '' : 's'}`;
  const sorted = [...states].sort((one, two) =>
    two.isHead - one.isHead || one.location - two.location || one.number - two.number);
  list.replaceChildren(made('h2', {id: 'where', tabindex: -1}, `${title}: ${many}`),
    legend ? made('p', {class: 'legend'}, legend) : made('button', {onclick: showHeads}, 'back to the loop heads'));
  const here = facts.states.table.length;
  if (here < facts.states.count) list.append(made('p', {class: 'quiet'}, `only the first ${here} are here`));
  addStates(list, sorted, 0, null);
}

/* The states of the trace that was found, in their order, and where the program itself goes another way. */
function showTrace() {
  const {table, trace, leaves} = facts.states, list = byId('list');
  const byNumber = new Map(table.map(it => [it.number, it]));
  list.replaceChildren(made('h2', {id: 'where', tabindex: -1}, `Trace: ${trace.length} abstract states`),
    made('button', {onclick: showHeads}, 'back to the loop heads'));
  trace.forEach((number, place) => {
    const state = byNumber.get(number);
    if (!state) return;
    if (place === leaves) list.append(made('p', {}, made('b', {}, 'Here the trace leaves what the program does:')));
    list.append(made('h3', {}, locationWords(state)), stateElement(state));
  });
  byId('where').focus();
}

/* Adds some states to the list, and a button for those behind them. */
function addStates(list, states, from, before) {
  let location = before;
  for (const state of states.slice(from, from + AT_ONCE)) {
    if (state.location !== location) list.append(made('h3', {}, locationWords(state)));
    location = state.location;
    list.append(stateElement(state));
  }
  const next = from + AT_ONCE, left = states.length - next;
  if (left <= 0) return;
  const more = made('button', {onclick: () => { more.remove(); addStates(list, states, next, location); }},
    `show ${Math.min(AT_ONCE, left)} more of ${left}`);
  list.append(more);
}

function locationWords({location, line, isHead}) {
  const begins = facts.states.starts[location];
  return `location ${location}` + (begins ? `, before line ${begins}` : line ? `, after line ${line}` : '') +
    (isHead ? ', a loop head' : '');
}

function stateElement({number, parent, line, choice, isHead, folds, picture}) {
  const head = made('div', {}, made('b', {}, `state ${number}`), parent === null ? ': the start' : ' from ');
  if (parent !== null) {
    head.append(made('button', {class: 'link', onclick: () => showParent(parent)}, `state ${parent}`),
      ` by line ${line}` + (choice === null ? '' : `, choice ${choice}`));
  }
  if (folds.length) head.append(`; folded ${folds.join(', ')}`);
  return made('div', {class: 'state' + (isHead ? ' head' : '')}, head, pictureOf(picture));
}

function showParent(number) {
  const state = facts.states.table.find(it => it.number === number);
  if (!state) return;
  if (lineOf(state)) light(lineOf(state));
  showStates(`State ${number}`, [state]);
  byId('where').focus();
}

/* A picture, or its text where it was not drawn. */
function pictureOf(number) {
  const forest = facts.states.forests[number], it = made('div', {class: 'picture'});
  if (forest && forest.startsWith('<svg')) it.innerHTML = forest;
  else it.append(made('pre', {}, forest || 'not on this page: too many states'));
  return it;
}
