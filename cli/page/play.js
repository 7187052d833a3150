// The playground: what is typed is shown as the server tells it, while it is typed.
const KEY = 'source=';
const PLAY = DATA; // what the page begins with: examples, and how long a text may be
const EMPTY = { units: [], shown: 0, source: [''], uses: {}, notes: [] };
const sentence = make('p', { class: 'sentence', role: 'status', hidden: '' });
const took = make('span', { class: 'took dim' });
const summary = make('div', { id: 'summary', role: 'tabpanel', hidden: '' });
const certificate = make('div', { id: 'certificate', role: 'tabpanel', hidden: '' });
const PANELS = { instructions: box, summary, certificate };
const tabs = Object.keys(PANELS).map((name) => make('button', { type: 'button', role: 'tab', 'data-tab': name, on: { click: () => openTab(name) } }, name));
let tab = 'instructions';

DATA = EMPTY;
const editor = new Editor((text) => take(text));
const asker = new Asker('/told', (told, { text }, time) => answer(told, text, time));
const SLOW = 300; // milliseconds after which it is said that an answer is awaited
let waiting = 0;
let unreadable = ''; // what is said of an address that has no text, for as long as the first example stands in its place

function say(text) {
  sentence.textContent = text;
  sentence.hidden = !text;
}

// Asks about a text, and puts it into the address.
function take(text) {
  const { length } = new TextEncoder().encode(text);
  if (text !== PLAY.first) unreadable = '';
  if (length > PLAY.most) say(`The text is too long: it has ${length.toLocaleString('en')} bytes, and ${PLAY.most.toLocaleString('en')} are the most that is looked at here.`);
  else {
    clearTimeout(waiting);
    waiting = setTimeout(() => { took.textContent = '..'; }, SLOW);
    asker.ask({ text });
  }
  keep(text);
}

let keeping = 0;
function keep(text) {
  clearTimeout(keeping);
  keeping = setTimeout(async () => history.replaceState(null, '', `#${KEY}${await packed(text)}`), 200);
}

// Shows what was told of a text, where that is still the one.
function answer(told, text, time) {
  if (text !== editor.value) return;
  clearTimeout(waiting);
  say(told.sentence || (text === PLAY.first ? unreadable : ''));
  if (told.sentence) return;
  const line = editor.caretLine();
  DATA = { ...EMPTY, ...told, source: text.split('\n') };
  took.textContent = `${Math.round(time)} ms`;
  took.title = 'from the question to the answer: lowered, inferred and explained';
  offer();
  editor.draw();
  const at = DATA.units.findIndex((one) => line !== null && holds(one, line));
  show(at < 0 ? DATA.shown : at);
}

// The parts of the tabs that aren't the instructions.
function showSummary() {
  const rows = views.map((view) => make('section', {}, make('h2', {}, titleOf(view.data.name)), make('p', { class: 'dim' }, 'What a call of it does:'),
    make('ul', { class: 'lines' }, ...view.data.summary.map((effect) => make('li', {}, effectSpan(view, effect))))));
  summary.replaceChildren(...rows);
}

const certifier = new Asker('/certificate', (told, { text }) => {
  if (text !== editor.value) return;
  certificate.replaceChildren(make('p', { class: told.accepted ? 'accepted' : 'refused' }, told.sentence), make('pre', { tabindex: 0 }, told.certificate || ''));
});

function showCertificate() {
  if (unit === NOTHING) certificate.replaceChildren();
  else certifier.ask({ text: editor.value, unit: unit.number });
}

function showTab() {
  for (const [name, element] of Object.entries(PANELS)) element.hidden = name !== tab;
  tabs.forEach((button) => button.setAttribute('aria-selected', `${button.dataset.tab === tab}`));
  if (tab === 'instructions') views.forEach((view) => view.drawLanes());
  else if (tab === 'summary') showSummary();
  else showCertificate();
}

function openTab(name) {
  tab = name;
  showTab();
}

// Another text: an example, or what the address has.
function begun(text) {
  editor.open(text);
  take(text);
}

async function fromAddress() {
  if (!location.hash.startsWith(`#${KEY}`)) return false;
  try {
    const text = await unpacked(location.hash.slice(KEY.length + 1), PLAY.most);
    if (text !== editor.value) begun(text);
    return true;
  } catch {
    unreadable = 'The address has no text that can be read.';
    say(unreadable);
    return false;
  }
}

function examples() {
  const group = (label, is) => make('optgroup', { label }, ...PLAY.examples.flatMap((one, at) => (is(one) ? [make('option', { value: at, title: one.why }, one.name)] : [])));
  const select = make('select', { id: 'examples', 'aria-label': 'Examples', on: { change: () => { if (select.value) begun(PLAY.examples[Number(select.value)].source); } } },
    make('option', { value: '' }, 'examples'), group('what is wrong', (one) => one.isWrong), group('what is right', (one) => !one.isWrong));
  return select;
}

async function play() {
  document.getElementById('title').after(examples(), took);
  const column = make('div', { id: 'told' }, sentence, make('div', { role: 'tablist', 'aria-label': 'What is shown of the function' }, ...tabs));
  box.setAttribute('role', 'tabpanel');
  box.replaceWith(column);
  column.append(box, summary, certificate);
  begin(PLAY.title, editor);
  window.addEventListener('hashchange', fromAddress);
  document.addEventListener('shown', showTab);
  show(0);
  if (!await fromAddress()) begun(PLAY.first);
  editor.text.focus();
}

play();
