// The source at the left: its lines, a bar beside them for each range, what is reported under them, and its names, which can be chosen.
const LINE = 18; // the height of a line of text
const BAR = 8; // the width of a bar with the space beside it
const MOST_BARS = 12; // bars side by side; others aren't drawn

// What is said under each line, of all units and of what isn't read: under the part of the source that a label names, its text, and with the first what is wrong.
function framesOf(data) {
  const frames = new Map();
  const add = (line, lines) => frames.set(line, [...new Set([...(frames.get(line) || []), ...lines])]);
  data.units.flatMap((one) => one.reports).forEach(({ category, message, labels }) => labels.filter((label) => label.at).forEach(({ at: [line, column, length], text }, place) => {
    const blank = (data.source[line] || '').slice(0, column).replace(/[^\t]/g, ' ');
    add(line, [`${blank}${'^'.repeat(Math.max(1, length))}${text ? ` ${text}` : ''}`, ...(place ? [] : [`${blank}${category}: ${message}`])]);
  }));
  if (data.error?.line !== undefined) add(data.error.line, [`${' '.repeat(data.error.column)}^ ${data.error.message}`]);
  return frames;
}

class SourceView {
  constructor(lines) {
    this.names = [];
    this.svg = draw('svg', { class: 'line-bars' });
    this.text = make('div', { class: 'text' });
    this.code = make('div', { class: 'source-lines' }, this.text, this.svg);
    this.element = make('div', { id: 'source' }, this.code);
    this.fill(lines);
  }

  get lines() {
    return [...this.text.children];
  }

  // Shows these lines, with the names and the frames that the data of the page has of them.
  fill(lines) {
    const frames = framesOf(DATA);
    this.names = [];
    this.text.replaceChildren(...lines.map((text, at) => this.line(text, DATA.uses[at] || [], frames.get(at))));
  }

  line(text, uses = [], frame = []) {
    const code = make('div', { class: 'line', 'data-frame': frame.length ? frame.join('\n') : null, on: { click: () => showLine(this.lines.indexOf(code)) } });
    let from = 0;
    uses.forEach((use) => {
      if (use.column < from) return;
      code.append(text.slice(from, use.column), this.name(use, text.slice(use.column, use.column + use.length)));
      from = use.column + use.length;
    });
    code.append(text.slice(from) || (text ? '' : make('br')));
    return code;
  }

  name(use, text) {
    const span = make('span', { class: 'name', role: 'button', tabindex: -1, on: { click: (event) => { event.stopPropagation(); this.choose(use); } } }, text);
    this.names.push({ span, use });
    return span;
  }

  choose(use) {
    if (DATA.units[use.unit] !== unit) show(use.unit);
    const view = views.find((one) => one.data.name === use.function);
    choose(view, use.id);
    view.spans.find((span) => Number(span.dataset.id) === use.id)?.scrollIntoView({ block: 'nearest' });
  }

  // The bars of the unit that is shown, one below the other in a lane where they don't meet.
  drawBars() {
    const bars = views.flatMap((view) => view.lineBars()).sort((a, b) => a.first - b.first || b.last - a.last);
    const lanes = lanesFor(bars.map(({ first, last }) => ({ start: first, end: last + 1 })));
    const count = Math.min(MOST_BARS, Math.max(0, ...lanes.map((lane) => lane + 1)));
    this.code.style.setProperty('--bars', `${count * BAR + 6}px`);
    const tops = this.lines.map((line) => line.offsetTop - this.text.offsetTop);
    this.svg.replaceChildren();
    this.svg.setAttribute('width', count * BAR + 6);
    this.svg.setAttribute('height', this.text.offsetHeight);
    this.bars = bars.filter((bar, at) => lanes[at] < MOST_BARS && bar.last < tops.length).map((bar) => ({ ...bar, rect: this.drawBar(bar, lanes[bars.indexOf(bar)], tops) }));
  }

  drawBar({ view, id, first, last }, lane, tops) {
    const rect = draw('rect', { x: lane * BAR + 3, y: tops[first] + 2, width: BAR - 2, height: tops[last] - tops[first] + LINE - 4, rx: 2 });
    rect.append(draw('title', {}, `${fullName(id)} may be written here`));
    rect.addEventListener('click', () => choose(view, id));
    this.svg.append(rect);
    view.frozen.filter((item) => item.id === id && item.row.lines).forEach((item) => {
      this.svg.append(draw('path', { class: 'frozen', d: `M${lane * BAR + 2} ${tops[item.row.lines[0]] + LINE / 2}h${BAR}` }));
    });
    return rect;
  }

  // What is chosen: its names and its bar.
  mark() {
    const { chosen } = state;
    const is = (view, id) => chosen && chosen.view === view && chosen.id === id;
    this.names.forEach(({ span, use }) => span.classList.toggle('chosen', Boolean(chosen) && DATA.units[use.unit] === unit && is(views.find((view) => view.data.name === use.function), use.id)));
    this.bars.forEach((bar) => bar.rect.classList.toggle('chosen', Boolean(is(bar.view, bar.id))));
    this.markLine(null);
  }

  markLine(line) {
    this.lines.forEach((element, at) => element.classList.toggle('chosen', at === line));
  }

  // The lines of the unit that is shown are bright.
  markUnit() {
    this.lines.forEach((element, at) => element.classList.toggle('other', Boolean(unit.lines) && !holds(unit, at)));
    this.goTo(unit.lines ? this.lines[unit.lines[0]] : null);
  }

  goTo(line) {
    if (line) this.element.scrollTop = Math.max(0, line.offsetTop - 2 * LINE);
  }
}
