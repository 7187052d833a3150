// The page is put together, and a unit shown.
const box = document.getElementById('functions');
const choice = document.getElementById('unit');
const NOTHING = { name: null, functions: [], names: {}, ranges: {}, lines: null, reports: [], explains: {} }; // where there is no unit
let sourceView = null;

function redraw() {
  views.forEach((view) => view.drawLanes());
  sourceView?.drawBars();
  sourceView?.mark();
}

// Shows a unit by its number.
function show(at) {
  unit = DATA.units[at] || NOTHING;
  state.chosen = null;
  marked = [];
  choice.value = `${at}`;
  views = unit.functions.map((data) => new FunctionView(data));
  box.replaceChildren(...views.map((view) => view.element));
  if (unit.reports.length) box.prepend(make('ul', { class: 'reports' }, ...unit.reports.map(reportItem)));
  if (DATA.notes.length) box.append(make('ul', { class: 'notes' }, ...DATA.notes.map((note) => make('li', {}, note))));
  panel.replaceChildren(hint);
  redraw();
  sourceView?.markUnit();
  document.dispatchEvent(new Event('shown'));
}

// The units to choose from.
function offer() {
  choice.replaceChildren(...DATA.units.map((one, at) => make('option', { value: at }, `${one.name || '(no name)'}${one.reports.length ? ` (${one.reports.length})` : ''}`)));
  choice.hidden = DATA.units.length < 2;
}

function bind(id, act) {
  document.getElementById(id).addEventListener('change', (event) => { act(event.target.checked); redraw(); });
}

function bindKeys() {
  document.addEventListener('keydown', (event) => {
    if (event.target.isContentEditable || ['INPUT', 'SELECT', 'BUTTON'].includes(event.target.tagName)) return;
    if (event.key === 'ArrowRight' || event.key === 'ArrowDown' && event.altKey) step(1);
    else if (event.key === 'Escape') leave();
    else if (event.key === 'ArrowLeft' || event.key === 'ArrowUp' && event.altKey) step(-1);
  });
}

function bindAll() {
  choice.addEventListener('change', () => show(Number(choice.value)));
  bind('show-names', (on) => { state.names = on; document.querySelectorAll('.id').forEach((span) => { span.textContent = nameOf(Number(span.dataset.id)); }); drawGraphs(); });
  bind('show-short', (on) => { state.short = on; });
  bind('show-effects', (on) => box.classList.toggle('no-effects', !on));
  document.getElementById('theme').addEventListener('click', () => {
    const dark = getComputedStyle(document.documentElement).getPropertyValue('--back').trim() !== '#fff';
    document.documentElement.className = dark ? 'light' : 'dark';
  });
  bindKeys();
  window.addEventListener('resize', redraw);
}

// The title, and the source beside the units.
function begin(title, beside) {
  document.title = `${title} · Jirrambeo`;
  document.getElementById('title').textContent = title;
  sourceView = beside;
  if (beside) {
    document.querySelector('main').classList.add('has-source');
    document.querySelector('main').prepend(beside.element);
  }
  bindAll();
}
