// A route table that a visitor may change: it is judged by the reader, and one that is refused leaves the table before
// it in use.

const TYPING_ENDS_MS = 300;

class TableField {
  // name: what the ids of its text, its fault and its places begin with. bytes: how many the module's table has.
  // use: takes a table into use, as the reader gives it, with its text.
  constructor(name, reader, bytes, use) {
    Object.assign(this, { reader, bytes, use });
    this.text = $(`${name}routes`);
    this.fault = $(`${name}fault`);
    this.places = $(`${name}places`);
    this.text.addEventListener('input', () => this.typed());
  }

  // Begins with a text.
  begin(text) {
    this.text.value = text;
    this.judge();
  }

  // A table is judged once its writer stops for a moment: else a fault would be read out for each letter.
  typed() {
    clearTimeout(this.typing);
    this.typing = setTimeout(() => this.judge(), TYPING_ENDS_MS);
  }

  judge() {
    const text = this.text.value;
    try {
      this.use(this.reader.table(text, this.bytes), text);
      this.tell('', this.reader.toldOfTable(text));
      this.text.removeAttribute('aria-invalid');
    } catch (fault) {
      if (!(fault instanceof Refused)) throw fault;
      this.tell(`Refused: ${fault.message}. The table before it stays in use.`, fault.told);
      this.text.setAttribute('aria-invalid', 'true');
    }
  }

  // A table that is in use may have keys that no rule names: these are told too.
  tell(fault, told) {
    this.fault.textContent = fault;
    showPlaces(this.places, told, (line) => this.chooseLine(line));
  }

  // Chooses a text line of the table.
  chooseLine(line) {
    const lines = this.text.value.split('\n');
    const from = lines.slice(0, line - 1).join('\n').length + (line > 1 ? 1 : 0);
    this.text.focus();
    this.text.setSelectionRange(from, from + lines[line - 1].length);
  }
}
