// An identifier in a text, which can be chosen.
function idSpan(view, id) {
  const span = make('span', { class: 'id', 'data-id': id, role: 'button', tabindex: -1, title: fullName(id),
    on: { click: (event) => { event.stopPropagation(); choose(view, id); } } }, nameOf(id));
  view.spans.push(span);
  return span;
}

// The words of an effect, with its identifiers as such. The last word of an error effect is the number of its report.
const PLACES = { Create: [1], CreateFrom: [1, 2], ImmutableCapture: [1, 2], Assign: [1, 2], Alias: [1, 2], Capture: [1, 2], MaybeAlias: [1, 2], Freeze: [1],
  Mutate: [1], MutateConditionally: [1], MutateTransitive: [1], MutateTransitiveConditionally: [1], Render: [1], MutateFrozen: [1], MutateGlobal: [1], Impure: [1] };

function effectSpan(view, effect) {
  const words = effect.split(' ');
  const isError = ERRORS.includes(words[0]);
  const span = make('span', { class: isError ? 'error' : words[0] === 'Freeze' ? 'freeze' : '' });
  const places = words[0] === 'CreateFunction' ? words.map((_, at) => at).filter((at) => at === 1 || at > 2) : PLACES[words[0]] || [];
  words.forEach((word, at) => {
    if (at) span.append(' ');
    span.append(places.includes(at) && /^\d+$/.test(word) ? idSpan(view, Number(word)) : word);
  });
  return span;
}

function codeSpan(view, instruction) {
  const span = make('span', { class: 'code', title: instruction.kind });
  if (instruction.text.trim()) {
    span.append(idSpan(view, instruction.lvalue), ' = ', instruction.text);
    return span;
  }
  span.append(idSpan(view, instruction.lvalue), ` = ${instruction.kind}`);
  if (instruction.function !== null && instruction.function !== undefined) span.append(` ${instruction.function}`);
  instruction.places.forEach((id) => span.append(' ', idSpan(view, id)));
  if (instruction.property) span.append(` .${instruction.property}`);
  return span;
}

// The lane of each span of a list, in its order: two share one where they don't meet. A span is from its start to before its end.
function lanesFor(spans) {
  const ends = [];
  return spans.map(({ start, end }) => {
    let lane = ends.findIndex((last) => last <= start);
    if (lane < 0) lane = ends.push(0) - 1;
    ends[lane] = end + 1;
    return lane;
  });
}

// One function: its rows in order, what is drawn beside them, and what is known of its identifiers.
class FunctionView {
  constructor(data) {
    Object.assign(this, { data, spans: [], rows: [], links: [], frozen: [], writes: [], heads: new Map(), tails: new Map() });
    this.explains = (unit.explains && unit.explains[data.name]) || {};
    this.rowsElement = make('div', { class: 'rows' });
    this.element = make('section', { id: `function-${data.name}` }, this.heading(), make('div', { class: 'body' }, this.rowsElement), this.foot());
    data.blocks.forEach((block) => this.addBlock(block));
  }

  heading() {
    const { data } = this;
    const facts = make('p', { class: 'facts' }, `${data.type || ''} · parameters `);
    const list = (ids) => (ids.length ? ids.forEach((id, at) => facts.append(at ? ', ' : '', idSpan(this, id))) : facts.append('none'));
    list(data.params);
    facts.append(' · context ');
    list(data.context);
    facts.append(' · returns ', idSpan(this, data.returns));
    this.unshown = make('span', {});
    facts.append(this.unshown);
    const lines = [data, ...data.instructions].flatMap((one) => one.lines || []);
    const place = lines.length ? make('span', { class: 'dim' }, ` line ${Math.min(...lines) + 1}`) : '';
    return make('div', {}, make('h2', {}, titleOf(data.name), place), facts);
  }

  foot() {
    const box = make('div', {});
    if (this.data.summary.length) {
      const lines = make('div', { class: 'summary' }, 'a call of it: ');
      this.data.summary.forEach((effect, at) => lines.append(at ? '; ' : '', effectSpan(this, effect)));
      box.append(lines);
    }
    const graph = make('div', { class: 'graph' });
    box.append(make('details', { on: { toggle: (event) => event.target.open && this.drawGraph(graph) } }, make('summary', {}, 'alias graph'), graph));
    return box;
  }

  addBlock(block) {
    const into = this.data.blocks.filter((other) => other.terminal.blocks.includes(block.id)).map((other) => other.id);
    const found = this.data.blocks_by_number[block.id];
    const open = () => showBlock(this, block, found);
    const press = (event) => { if (event.key === 'Enter' || event.key === ' ') { event.preventDefault(); open(); } };
    const head = make('div', { class: `block${found ? '' : ' unreached'}`, id: `block-${this.data.name}-${block.id}`, tabindex: 0, role: 'button',
      on: { click: open, keydown: press } }, `block ${block.id} `, make('span', { class: 'ways' }, `${into.length ? `← ${into.join(', ')} ` : ''}${block.terminal.blocks.length ? `→ ${block.terminal.blocks.join(', ')}` : ''}${found ? '' : ' (not reached)'}`));
    this.heads.set(block.id, head);
    this.rowsElement.append(head);
    block.phis.forEach((phi) => this.addPhi(phi, block));
    block.instructions.forEach((number) => {
      const instruction = this.data.instructions[number];
      this.addRow(instruction.order, codeSpan(this, instruction), (found && found.effects[number]) || [], number, instruction);
    });
    const code = make('span', { class: 'code' }, block.terminal.kind);
    block.terminal.places.forEach((id) => code.append(' ', idSpan(this, id)));
    this.tails.set(block.id, this.addRow(block.terminal.order, code, found ? found.end : [], null));
  }

  addPhi(phi, block) {
    const code = make('span', { class: 'code' }, idSpan(this, phi.place), ' = phi');
    phi.operands.forEach(([from, id]) => { code.append(` ${from}:`, idSpan(this, id)); });
    const first = block.instructions.length ? this.data.instructions[block.instructions[0]].order : block.terminal.order;
    const row = this.addRow(first - 1, code, [], null);
    row.element.querySelector('.order').textContent = '';
    phi.operands.forEach(([, id]) => this.links.push({ from: id, into: phi.place, kind: 'Alias', row }));
  }

  addRow(order, code, effects, number, instruction = null) {
    const list = make('span', { class: 'effects' });
    const element = make('div', { class: 'row' }, make('span', { class: 'order', title: number === null ? '' : `instruction ${number}` }, `${order}`), code, list);
    const row = { order, element, number, instruction, lines: instruction?.lines || null };
    effects.forEach((effect, at) => {
      if (at) list.append('\n');
      list.append(effectSpan(this, effect));
      this.note(effect.split(' '), row);
    });
    this.rows.push(row);
    this.rowsElement.append(element);
    return row;
  }

  // What an effect says of identifiers: a link, a freeze, or a write that is reported.
  note(words, row) {
    const id = (at) => Number(words[at]);
    if (ERRORS.includes(words[0])) row.element.classList.add('reported');
    if (LINKS[words[0]]) this.links.push({ from: id(1), into: id(2), kind: LINKS[words[0]], row });
    else if (words[0] === 'CreateFunction') words.slice(3).forEach((word) => this.links.push({ from: Number(word), into: id(1), kind: 'Capture', row }));
    else if (words[0] === 'Freeze') this.frozen.push({ id: id(1), row });
    else if (words[0] === 'MutateFrozen' || words[0] === 'MutateGlobal') this.writes.push({ id: id(1), row });
  }

  identifiers() {
    const seen = new Set(this.spans.map((span) => Number(span.dataset.id)));
    return [...seen].filter((id) => unit.ranges[id] && !this.data.context.includes(id)).sort((a, b) => unit.ranges[a][0] - unit.ranges[b][0] || a - b);
  }

  // Identifiers with their lanes: two share one where their ranges don't meet.
  lanes() {
    const bars = this.identifiers().filter((id) => state.short || !isShort(id)).map((id) => ({ id, start: unit.ranges[id][0], end: unit.ranges[id][1] }));
    return lanesFor(bars).map((lane, at) => ({ ...bars[at], lane }));
  }

  // All rows have their effects in one column.
  align() {
    const codes = this.rows.map((row) => row.element.children[1]);
    this.rowsElement.style.removeProperty('--code');
    this.rowsElement.style.setProperty('--code', `${Math.max(160, ...codes.map((code) => code.offsetWidth)) + 4}px`);
  }

  // The ways of control from the end of a block to the next, left of the rows. The way to the block below is short and straight.
  drawWays() {
    this.ways?.remove();
    const middle = (element) => element.offsetTop + element.offsetHeight / 2;
    const ways = this.data.blocks.flatMap((block) => block.terminal.blocks.filter((to) => this.heads.has(to)).map((to) => ({ from: this.tails.get(block.id).element, to: this.heads.get(to) })));
    const spans = ways.map(({ from, to }) => ({ from: middle(from), to: middle(to) + 4 })).map((way) => ({ ...way, start: Math.min(way.from, way.to), end: Math.max(way.from, way.to) }))
      .sort((a, b) => (a.end - a.start) - (b.end - b.start));
    const lanes = spans.map((_, at) => spans.slice(0, at).filter((other) => other.start < spans[at].end && spans[at].start < other.end).length);
    const width = WAY * Math.min(MOST_WAYS, Math.max(0, ...lanes.map((lane) => lane + 1)));
    this.rowsElement.style.setProperty('--ways', `${width}px`);
    this.ways = draw('svg', { class: 'ways-drawn', width: width + 14, height: this.rowsElement.offsetHeight, 'aria-hidden': 'true' });
    spans.forEach((way, at) => {
      const x = width + 4 - WAY * (1 + lanes[at] % MOST_WAYS);
      this.ways.append(draw('path', { d: `M${width + 10} ${way.from}H${x}V${way.to}H${width + 8}m-4 -3l4 3l-4 3`, class: way.to < way.from ? 'back' : '' }));
    });
    this.rowsElement.append(this.ways);
  }

  // All that is laid out: what a choice changes is drawn by `mark` alone, since laying out many rows takes long.
  drawLanes() {
    this.align();
    this.svg?.remove();
    const short = this.identifiers().filter(isShort).length;
    this.unshown.textContent = short && !state.short ? ` · ${short} range${short > 1 ? 's' : ''} of one instruction not drawn` : '';
    const bars = this.lanes();
    this.tops = this.rows.map((row) => ({ order: row.order, top: row.element.offsetTop, bottom: row.element.offsetTop + row.element.offsetHeight, row }));
    const left = Math.max(...this.rows.map((row) => row.element.lastChild.offsetLeft + row.element.lastChild.offsetWidth), 200) + 24;
    this.count = Math.max(0, ...bars.map((bar) => bar.lane + 1));
    this.svg = draw('svg', { class: 'lanes', width: this.count * LANE + 60, height: this.rowsElement.offsetHeight });
    this.svg.style.left = `${left}px`;
    this.rowsElement.style.setProperty('--lanes', `${(this.count + 1) * LANE + 24}px`);
    this.bars = new Map();
    bars.forEach((bar) => this.drawBar(bar, this.svg));
    this.rowsElement.append(this.svg);
    this.drawWays();
    this.mark();
  }

  // The rows of a range: where the first begins and the last ends.
  extent(bar) {
    let [top, bottom] = [Infinity, -Infinity];
    for (const at of this.tops) {
      if (at.order >= bar.start && at.order < bar.end) [top, bottom] = [Math.min(top, at.top), Math.max(bottom, at.bottom)];
    }
    return { top: top + 2, height: Math.max(bottom - 4 - top, 4) };
  }

  drawBar(bar, onto) {
    const { top, height } = this.extent(bar);
    if (top === Infinity) return;
    const x = bar.lane * LANE;
    const rect = draw('rect', { x, y: top, width: LANE - 4, height, rx: 3 });
    rect.append(draw('title', {}, `${fullName(bar.id)}: ${bar.start}..${bar.end}`));
    rect.addEventListener('click', () => choose(this, bar.id));
    onto.append(rect);
    const name = nameOf(bar.id);
    if (name.length < 3) onto.append(draw('text', { class: 'name', x: x + (LANE - 4) / 2, y: top + 12, 'text-anchor': 'middle' }, name));
    else if (height > 34) onto.append(draw('text', { class: 'name', transform: `translate(${x + 4} ${top + 6}) rotate(90)` }, name.slice(0, Math.floor(height / 7))));
    this.bars.set(bar.id, { rect, x: x + (LANE - 4) / 2, top, bottom: top + height });
    const sign = (list, shape) => list.filter((item) => item.id === bar.id).forEach((item) => {
      const place = this.tops.find((at) => at.row === item.row);
      if (place) onto.append(shape(x, (place.top + place.bottom) / 2));
    });
    sign(this.frozen, (left, y) => draw('path', { class: 'frozen', d: `M${left - 1} ${y}h${LANE - 2}` }));
    sign(this.writes, (left, y) => draw('circle', { class: 'write', cx: left + (LANE - 4) / 2, cy: y, r: 4 }));
  }

  // What is chosen, in this function: its bar, which gets a lane of its own where it has none, and the bars and the rows of its path.
  mark() {
    this.marked?.forEach((element) => element.classList.remove('chosen', 'near', 'on-path'));
    this.marked = [];
    this.above?.remove();
    this.bars.forEach((bar, id) => { if (bar.isExtra) this.bars.delete(id); });
    const { chosen } = state;
    if (chosen?.view !== this) return;
    this.above = draw('g');
    this.svg.append(this.above);
    const range = unit.ranges[chosen.id];
    if (range && !this.bars.has(chosen.id)) {
      this.drawBar({ id: chosen.id, lane: this.count, start: range[0], end: range[1] }, this.above);
      if (this.bars.has(chosen.id)) this.bars.get(chosen.id).isExtra = true;
    }
    const why = this.explains[chosen.id];
    (why?.path || []).forEach((step) => this.paint(this.bars.get(step.identifier)?.rect, 'near'));
    this.paint(this.bars.get(chosen.id)?.rect, 'chosen');
    if (why) this.drawPath(why);
  }

  paint(element, name) {
    if (!element) return;
    element.classList.remove('near');
    element.classList.add(name);
    this.marked.push(element);
  }

  // The path by which a mutation reaches the chosen identifier, along the rows whose effects link its steps.
  drawPath(why) {
    this.paint(this.rows.find((row) => row.number === why.instruction && row.number !== null)?.element, 'on-path');
    this.linksOf(why.path).forEach(({ link, a, b }) => {
      this.paint(link.row.element, 'on-path');
      const place = this.tops.find((one) => one.row === link.row);
      const [from, to] = [this.bars.get(a), this.bars.get(b)];
      if (place && from && to) this.above.append(draw('path', { d: `M${from.x} ${place.top + 8}L${to.x} ${place.top + 8}` }));
    });
  }

  linksOf(path) {
    return path.slice(1).flatMap((step, at) => {
      const [a, b] = [path[at].identifier, step.identifier];
      const link = this.links.find((one) => (step.forwards ? one.from === a && one.into === b : one.from === b && one.into === a))
        || this.links.find((one) => (one.from === a && one.into === b) || (one.from === b && one.into === a));
      return link ? [{ link, a, b }] : [];
    });
  }

  // The rows of a line of the source: those that begin on it, or else the innermost that go over it.
  rowsOf(line) {
    const over = this.rows.filter((row) => row.lines && row.lines[0] <= line && line <= row.lines[1]);
    const begin = over.filter((row) => row.lines[0] === line);
    const size = Math.min(...over.map((row) => row.lines[1] - row.lines[0]));
    return begin.length ? begin : over.filter((row) => row.lines[1] - row.lines[0] === size);
  }

  // The named identifiers that may be written over more than one instruction, each with the first and the last line of that.
  lineBars() {
    return this.identifiers().filter((id) => unit.names[id] && !isShort(id)).flatMap((id) => {
      const [start, end] = unit.ranges[id];
      const lines = this.rows.filter((row) => row.lines && row.order >= start && row.order < end).map((row) => row.lines[0]);
      return lines.length ? [{ view: this, id, first: Math.min(...lines), last: Math.max(...lines) }] : [];
    });
  }

  drawGraph(box) {
    box.replaceChildren(graphOf(this));
  }
}

