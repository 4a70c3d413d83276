// What stands in a module's memory, by the layout that the module tells: a text line for each struct, with its bytes and
// where its fields begin, as `mark 20 line:u32@0 kind:u32@4` or `taken 584 marks:mark*24@0`.

const LAYOUT_BYTES = 2048;

// How a number of each type is read and written.
const TYPES = {
  u8: ['getUint8', 'setUint8', 1], u16: ['getUint16', 'setUint16', 2], u32: ['getUint32', 'setUint32', 4],
  u64: ['getBigUint64', 'setBigUint64', 8], i64: ['getBigInt64', 'setBigInt64', 8],
};

class Memory {
  // room: where in the module's memory the page's part begins.
  constructor({ memory, mfweb_layout: tell }, room) {
    this.view = new DataView(memory.buffer);
    this.bytes = new Uint8Array(memory.buffer);
    this.structs = new Map();
    if (tell(BigInt(room), BigInt(LAYOUT_BYTES), BigInt(room + LAYOUT_BYTES))) throw new Error('no layout is told');
    const length = this.view.getUint32(room + LAYOUT_BYTES, true);
    for (const line of this.text(room, length).trim().split('\n')) this.learn(line);
  }

  text(at, length) { return new TextDecoder().decode(this.bytes.slice(at, at + length)); }

  learn(line) {
    const [name, bytes, ...fields] = line.split(' ');
    const places = fields.map((field) => {
      const [, called, type, count, at] = /^(\w+):(\w+?)(?:\*(\d+))?@(\d+)$/.exec(field);
      return [called, { type, count: count && Number(count), at: Number(at) }];
    });
    this.structs.set(name, { bytes: Number(bytes), fields: new Map(places) });
  }

  bytesOf(type) { return TYPES[type]?.[2] ?? this.structs.get(type).bytes; }

  // Where a field of a struct stands that begins at a place.
  placeOf(name, field, from = 0) { return from + this.structs.get(name).fields.get(field).at; }

  // What stands at a place: a number, or a struct with all its fields. `counts` says how many of a list are to be read.
  read(type, at, counts = {}) {
    const way = TYPES[type];
    if (way) return Number(this.view[way[0]](at, true));
    const given = {};
    for (const [name, field] of this.structs.get(type).fields) {
      given[name] = this.readField(field, at + field.at, counts[name]);
    }
    return given;
  }

  readField({ type, count }, at, wanted) {
    if (count === undefined) return this.read(type, at, wanted);
    return this.list(type, at, Math.min(wanted ?? count, count));
  }

  // So many things of a type, one after another.
  list(type, at, count) {
    const bytes = this.bytesOf(type);
    const all = [];
    for (let i = 0; i < count; i++) all.push(this.read(type, at + bytes * i));
    return all;
  }

  // What writes a struct of three numbers of 32 bits, which stands at this place.
  putter(type, at) {
    const { view } = this;
    const fields = [...this.structs.get(type).fields.values()];
    if (fields.length !== 3 || fields.some((field) => field.type !== 'u32')) throw new Error(`${type} has other fields`);
    const [first, second, third] = fields.map((field) => at + field.at);
    return (a, b, c) => {
      view.setUint32(first, a, true);
      view.setUint32(second, b, true);
      view.setUint32(third, c, true);
    };
  }

  // Writes numbers into the fields of a struct.
  write(type, at, values) {
    for (const [name, value] of Object.entries(values)) {
      const field = this.structs.get(type).fields.get(name);
      this.view[TYPES[field.type][1]](at + field.at, value, true);
    }
  }
}
