// A report as it is read: what it is about, what is wrong, what to do, and what it says of each part of the source.
function reportItem(report) {
  const item = make('li', {}, make('b', {}, report.category), ` ${report.message}`);
  report.labels.forEach((label) => item.append(make('div', {}, `${label.place || `${label.start}..${label.end}`}${label.text ? `: ${label.text}` : ''}`, label.source ? make('code', {}, label.source) : '')));
  if (report.help) item.append(make('div', { class: 'dim' }, report.help));
  return item;
}

const panel = document.getElementById('panel');

const CAUSES = {
  unset: () => 'Nothing writes it: it has no range.',
  defined: (why) => `It ends one past instruction ${why.instruction}, which defines it: no later write reaches it.`,
  mutated: (why) => `It ends one past instruction ${why.instruction}, whose write reaches it:`,
  nocause: () => 'No cause was found.',
};

function drawGraphs() {
  document.querySelectorAll('details[open] .graph').forEach((box) => views.find((one) => one.element.contains(box))?.drawGraph(box));
}

function choose(view, id) {
  state.chosen = { view, id };
  document.querySelectorAll('.id').forEach((span) => span.classList.toggle('chosen', Number(span.dataset.id) === id));
  views.forEach((one) => one.mark());
  sourceView?.mark();
  drawGraphs();
  const range = unit.ranges[id];
  const why = view.explains[id];
  const parts = [make('h3', {}, `${fullName(id)} in ${titleOf(view.data.name)}`), make('p', {}, range ? `range ${range[0]}..${range[1]}` : 'no range')];
  if (why) parts.push(make('p', {}, CAUSES[why.cause](why)));
  if (why?.path.length) {
    parts.push(make('ol', {}, ...why.path.map((step, at) => make('li', {}, idSpan(view, step.identifier),
      ` ${at === 0 ? 'is written' : step.forwards ? 'holds it' : 'is where it comes from'}${step.transitive ? ', with all that it holds' : ''}${step.definite ? '' : ', maybe'}`))));
  }
  if (!why && range) parts.push(make('p', { class: 'dim' }, 'Why it ends isn’t told here: it stands in another function, or the page was made without the proved program.'));
  const frozen = view.frozen.filter((item) => item.id === id).map((item) => item.row.order);
  if (frozen.length) parts.push(make('p', {}, `frozen at ${frozen.join(', ')}`));
  panel.replaceChildren(...parts);
}

function showBlock(view, block, found) {
  const lines = found ? found.state : [];
  panel.replaceChildren(make('h3', {}, `block ${block.id} of ${titleOf(view.data.name)}`), make('p', {}, lines.length ? 'is entered with' : found ? 'is entered with nothing' : 'is not reached'),
    make('div', { class: 'state' }, ...lines.map((line) => make('div', {}, line))));
}

// The rows of a line of the source, which are marked.
let marked = [];
function markRows(rows) {
  marked.forEach((row) => row.element.classList.remove('on-line'));
  marked = rows;
  rows.forEach((row) => row.element.classList.add('on-line'));
}

function showLine(line) {
  const at = DATA.units.findIndex((one) => one === unit && holds(one, line));
  const other = at < 0 ? DATA.units.findIndex((one) => holds(one, line)) : at;
  if (at < 0 && other >= 0) show(other);
  const found = views.flatMap((view) => view.rowsOf(line).map((row) => ({ view, row })));
  markRows(found.map(({ row }) => row));
  sourceView.markLine(line);
  found[0]?.row.element.scrollIntoView({ block: 'center' });
  panel.replaceChildren(make('h3', {}, `line ${line + 1}`), found.length ? make('ol', { class: 'line-rows' }, ...found.map(({ view, row }) => make('li', { value: row.order },
    codeSpan(view, row.instruction), make('div', { class: 'dim' }, row.element.lastChild.textContent)))) : make('p', { class: 'dim' }, 'No instruction comes from it.'));
}

const holds = (one, line) => one.lines && one.lines[0] <= line && line <= one.lines[1];

function step(by) {
  const view = state.chosen?.view || views[0];
  const ids = view ? view.identifiers() : [];
  if (!ids.length) return;
  const at = ids.indexOf(state.chosen?.id);
  const id = ids[(at + by + ids.length) % ids.length];
  choose(view, id);
  view.spans.find((span) => Number(span.dataset.id) === id)?.scrollIntoView({ block: 'nearest' });
}

// Nothing is chosen any more.
function leave() {
  state.chosen = null;
  document.querySelectorAll('.id.chosen').forEach((span) => span.classList.remove('chosen'));
  markRows([]);
  views.forEach((view) => view.mark());
  sourceView?.mark();
  drawGraphs();
  panel.replaceChildren(hint);
}

const hint = panel.firstElementChild;
