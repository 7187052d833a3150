// What the playground asks of its server, and the source in its address.

// What is said of a question at a path of the server; a sentence where there is none.
async function asked(path, question, signal) {
  try {
    const answer = await fetch(path, { method: 'POST', headers: { 'Content-Type': 'application/json' }, body: JSON.stringify(question), signal });
    return await answer.json();
  } catch (error) {
    return { sentence: `There is no answer: ${error.message}. Is \`./jirrambeo playground\` still running?` };
  }
}

// Asks for one thing at a time: while an answer is awaited, only the last of what comes is kept.
class Asker {
  constructor(path, take) {
    Object.assign(this, { path, take, isAsking: false, next: null });
  }

  async ask(question) {
    this.next = question;
    if (this.isAsking) return;
    this.isAsking = true;
    while (this.next) {
      const now = this.next;
      this.next = null;
      const begun = performance.now();
      const told = await asked(this.path, now);
      if (!this.next) this.take(told, now, performance.now() - begun);
    }
    this.isAsking = false;
  }
}

// A text as the part of an address behind `#`: packed, as letters that an address may have; and back, where it isn't longer than that.
async function packed(text) {
  const stream = new Blob([text]).stream().pipeThrough(new CompressionStream('deflate-raw'));
  const bytes = new Uint8Array(await new Response(stream).arrayBuffer());
  return btoa(Array.from(bytes, (byte) => String.fromCharCode(byte)).join('')).replace(/\+/g, '-').replace(/\//g, '_').replace(/=+$/, '');
}

async function unpacked(letters, most) {
  const bytes = Uint8Array.from(atob(letters.replace(/-/g, '+').replace(/_/g, '/')), (letter) => letter.charCodeAt(0));
  const reader = new Blob([bytes]).stream().pipeThrough(new DecompressionStream('deflate-raw')).getReader();
  const decoder = new TextDecoder('utf-8', { fatal: true });
  let text = '';
  for (let part = await reader.read(); !part.done; part = await reader.read()) {
    text += decoder.decode(part.value, { stream: true });
    if (text.length > most) throw new RangeError('it is too long');
  }
  return text + decoder.decode();
}
