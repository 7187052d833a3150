// The source as a text to type into: its lines are drawn as ever, and what is typed changes the text, of which they are drawn anew.
const INDENT = '  ';
const LONGEST_PAUSE = 600; // milliseconds between keys that are taken back together
const WRITES = { insertParagraph: '\n', insertLineBreak: '\n' };

class Editor extends SourceView {
  constructor(changed) {
    super(['']);
    Object.assign(this, { changed, value: '', done: [], undone: [], leaves: false, isComposing: false });
    const { text } = this;
    for (const [name, value] of Object.entries({ contenteditable: 'true', role: 'textbox', 'aria-multiline': 'true', 'aria-label': 'The source', spellcheck: 'false', autocapitalize: 'off', tabindex: '0' })) text.setAttribute(name, value);
    text.addEventListener('beforeinput', (event) => this.write(event));
    text.addEventListener('compositionstart', () => { this.isComposing = true; });
    text.addEventListener('compositionend', () => this.composed());
    text.addEventListener('keydown', (event) => this.press(event));
    text.addEventListener('copy', (event) => this.copy(event));
    text.addEventListener('cut', (event) => { this.copy(event); this.replace(...this.selection(), ''); });
  }

  // Another text from outside, which can't be taken back.
  open(value) {
    Object.assign(this, { value, done: [], undone: [] });
    this.draw();
  }

  // The lines are drawn with what is known of them, and the caret stays where it is.
  draw() {
    if (this.isComposing) return;
    const caret = this.isFocused() ? this.selection() : null;
    this.fill(this.value.split('\n'));
    if (caret) this.select(...caret);
  }

  isFocused() {
    return document.activeElement === this.text && getSelection().rangeCount > 0;
  }

  // The index in the text of a place in the document.
  index(node, offset) {
    const { lines } = this;
    if (node === this.text) return offset < lines.length ? this.start(offset) : this.value.length;
    const at = lines.findIndex((line) => line.contains(node));
    if (at < 0) return this.value.length;
    const before = document.createRange();
    before.setStart(lines[at], 0);
    before.setEnd(node, offset);
    return this.start(at) + before.toString().length;
  }

  // The index at which a line begins.
  start(line) {
    return this.value.split('\n').slice(0, line).reduce((sum, text) => sum + text.length + 1, 0);
  }

  // The place in the document of an index of the text.
  place(index) {
    const before = this.value.slice(0, index).split('\n');
    const line = this.text.children[before.length - 1];
    let left = before[before.length - 1].length;
    const walk = document.createTreeWalker(line, NodeFilter.SHOW_TEXT);
    for (let node = walk.nextNode(); node; node = walk.nextNode()) {
      if (left <= node.length) return [node, left];
      left -= node.length;
    }
    return [line, 0];
  }

  // Both ends of what is selected, the anchor first.
  selection() {
    const { anchorNode, anchorOffset, focusNode, focusOffset } = getSelection();
    return [this.index(anchorNode, anchorOffset), this.index(focusNode, focusOffset)];
  }

  select(from, to = from) {
    const [anchor, focus] = [this.place(from), this.place(to)];
    getSelection().setBaseAndExtent(...anchor, ...focus);
  }

  // What a key, a menu or a drop asks for is done to the text.
  write(event) {
    if (event.inputType === 'insertCompositionText' || this.isComposing) return;
    event.preventDefault();
    if (event.inputType === 'historyUndo') this.takeBack(this.done, this.undone);
    else if (event.inputType === 'historyRedo') this.takeBack(this.undone, this.done);
    else if (/^(insert|delete)/.test(event.inputType)) {
      const [range] = event.getTargetRanges();
      if (!range) return;
      const given = WRITES[event.inputType] || event.data || event.dataTransfer?.getData('text/plain') || '';
      this.replace(this.index(range.startContainer, range.startOffset), this.index(range.endContainer, range.endOffset), event.inputType.startsWith('insert') ? given.replace(/\r\n?/g, '\n') : '');
    }
  }

  // What was composed stands in the document first.
  composed() {
    this.isComposing = false;
    const caret = this.selection();
    const now = this.lines.map((line) => line.textContent).join('\n');
    let [from, tail] = [0, 0];
    while (from < now.length && now[from] === this.value[from]) from += 1;
    while (tail < Math.min(now.length, this.value.length) - from && now[now.length - 1 - tail] === this.value[this.value.length - 1 - tail]) tail += 1;
    this.replace(from, this.value.length - tail, now.slice(from, now.length - tail));
    this.select(Math.min(caret[1], this.value.length));
  }

  press(event) {
    if (event.isComposing) return;
    const leaves = this.leaves;
    this.leaves = event.key === 'Escape'; // Tab goes on to the next part of the page after it
    const isControl = event.ctrlKey || event.metaKey;
    if (event.key === 'Tab' && !leaves && !event.shiftKey) this.type(event, INDENT);
    else if (event.key === 'Enter' && !isControl) this.type(event, `\n${/^\s*/.exec(this.value.slice(0, Math.min(...this.selection())).split('\n').pop())[0]}`);
    else if (isControl && event.key.toLowerCase() === 'z') {
      event.preventDefault();
      if (event.shiftKey) this.takeBack(this.undone, this.done);
      else this.takeBack(this.done, this.undone);
    } else if (isControl && event.key.toLowerCase() === 'y') {
      event.preventDefault();
      this.takeBack(this.undone, this.done);
    }
  }

  type(event, text) {
    event.preventDefault();
    this.replace(...this.selection(), text);
  }

  copy(event) {
    const [from, to] = this.selection().sort((a, b) => a - b);
    if (from === to) return;
    event.clipboardData.setData('text/plain', this.value.slice(from, to));
    event.preventDefault();
  }

  replace(one, other, text) {
    const [from, to] = [Math.min(one, other), Math.max(one, other)];
    const removed = this.value.slice(from, to);
    if (removed === text) return;
    const last = this.done[this.done.length - 1];
    const now = performance.now();
    if (last && !removed && text.length === 1 && text !== '\n' && last.from + last.text.length === from && now - last.at < LONGEST_PAUSE) Object.assign(last, { text: last.text + text, at: now });
    else this.done.push({ from, removed, text, at: now });
    this.undone = [];
    this.put(from, to, text);
  }

  // Lines that don't change keep their names and their frames until the next answer.
  put(from, to, text) {
    const [first, last] = [from, to].map((index) => this.lineOf(index));
    const old = this.lines.slice(first, last + 1);
    this.value = this.value.slice(0, from) + text + this.value.slice(to);
    const fresh = this.value.split('\n').slice(first, this.lineOf(from + text.length) + 1);
    old[0].replaceWith(...fresh.map((line, at) => this.line(line, [], at ? [] : (old[0].dataset.frame || '').split('\n').filter(Boolean))));
    old.slice(1).forEach((line) => line.remove());
    this.select(from + text.length);
    this.lines[this.lineOf(from + text.length)].scrollIntoView({ block: 'nearest' });
    this.changed(this.value);
  }

  takeBack(from, onto) {
    const change = from.pop();
    if (!change) return;
    onto.push({ from: change.from, removed: change.text, text: change.removed, at: 0 });
    this.put(change.from, change.from + change.text.length, change.removed);
  }

  lineOf(index) {
    return this.value.slice(0, index).split('\n').length - 1;
  }

  // The line of the caret, or null where it is elsewhere.
  caretLine() {
    return this.isFocused() ? this.lineOf(this.selection()[1]) : null;
  }

  // Who types looks where the caret is.
  goTo(line) {
    if (!this.isFocused()) super.goTo(line);
  }
}
