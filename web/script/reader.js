// The proved reader: whole decks to their pages, route tables, and what is told of both line by line, by the crates
// that mfbank and mfcheck are made of. Nothing else on the page reads a text.

const MOST_HEAP_BYTES = 2 ** 29;
const LEAST_ROOM_BYTES = 65536;

// What a call of the reader comes to.
const READ = 0;
const NO_MEMORY = 1;
const REFUSED = 2;
const NO_ROOM = 7;

// What follows a table, so that a deck without records has it.
const NO_RECORDS = '\n---\nline,state,ms\n';
const deckOfTable = (text) => new TextEncoder().encode(text + NO_RECORDS);

// A text that is refused. Its words are those of mfbank; `told` has the lines that mfcheck writes of it.
class Refused extends Error {
  constructor(words, told = []) {
    super(words);
    this.told = told;
  }
}

// What a deck comes to: its page, or its fault and what is told of it.
async function pageOfDeck(wasm, bytes) {
  try {
    return { page: (await Reader.open(wasm)).page(bytes) };
  } catch (fault) {
    if (!(fault instanceof Refused)) throw fault;
    return { fault: fault.message, told: fault.told };
  }
}

class Reader {
  static async open(wasm) {
    return new Reader((await WebAssembly.instantiate(wasm, {})).instance.exports);
  }

  constructor(exports) {
    this.calls = exports;
    this.base = Number(exports.__heap_base.value);
  }

  // Lays out a text and a room of so many bytes after the reader's own memory, and after them its heap.
  lay(bytes, length) {
    const up = (at) => Math.ceil(at / 16) * 16;
    const text = up(this.base);
    const count = up(text + bytes.length);
    const room = count + 16;
    const heap = up(room + length);
    const lacking = heap - this.calls.memory.buffer.byteLength;
    if (lacking > 0) this.calls.memory.grow(Math.ceil(lacking / 65536));
    new Uint8Array(this.calls.memory.buffer).set(bytes, text);
    this.calls.mfheap_begin(BigInt(heap), BigInt(heap + MOST_HEAP_BYTES));
    return { text, count, room };
  }

  number(at) { return new DataView(this.calls.memory.buffer).getUint32(at, true); }

  // What a call makes of a deck: its status, and the text that it gives. It says how long a room that text needs.
  made(call, bytes) {
    for (let length = LEAST_ROOM_BYTES; ;) {
      const { text, count, room } = this.lay(bytes, length);
      const status = call(BigInt(text), BigInt(bytes.length), BigInt(room), BigInt(length), BigInt(count));
      const given = this.number(count);
      if (status !== NO_ROOM) {
        return { status, text: new TextDecoder().decode(new Uint8Array(this.calls.memory.buffer, room, given)) };
      }
      length = given;
    }
  }

  // The page of a deck. Throws its first fault.
  page(bytes) {
    const { status, text } = this.made(this.calls.mfpage_deck, bytes);
    if (status === NO_MEMORY) throw new Refused('out of memory');
    if (status === REFUSED) throw new Refused(text, this.told(bytes));
    return text;
  }

  // The lines that mfcheck writes of a deck; none where memory ran out.
  told(bytes) { return this.made(this.calls.mfpage_told, bytes).text.split('\n').slice(0, -1); }

  // The same of a table.
  toldOfTable(text) { return this.told(deckOfTable(text)); }

  // The table that a text writes, as the chain's module takes it, which says how many bytes it has. Throws its fault.
  table(text, length) {
    const bytes = new TextEncoder().encode(text);
    if (/(^|\n)---\r?(\n|$)/.test(text)) throw new Refused('a line --- ends a table');
    const { text: at, count: place, room } = this.lay(bytes, length);
    const status = this.calls.mfpage_table(BigInt(at), BigInt(bytes.length), BigInt(room), BigInt(place));
    if (status === READ) return new Uint8Array(this.calls.memory.buffer.slice(room, room + length));
    throw this.faultOf(text);
  }

  // The fault of a table. Its words are those of a deck that has nothing else.
  faultOf(text) {
    try {
      this.page(deckOfTable(text));
    } catch (fault) {
      if (!(fault instanceof Refused)) return fault;
      return new Refused(fault.message.replace(/^route table: /, ''), fault.told);
    }
    return new Refused('not TOML');
  }
}
