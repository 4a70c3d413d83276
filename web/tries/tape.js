// The tape of the page beside two programs: mfbank, whose page of the very rows that the page gave has to be the tape,
// and mfhear, whose report of them has to say what the pictures of refused attempts say.
'use strict';
const { execFileSync } = require('child_process');
const { is } = require('./checks.js');

class TapeTry {
  constructor(it, { mfbank, mfhear }) {
    Object.assign(this, { it, mfbank, mfhear, count: 0 });
  }

  // Waits for the next entry, which has to be this.
  async entry(what, line, ms) {
    await this.it.untilEntries(++this.count, ms);
    is(what, (await this.it.entries()).slice(-1), [line]);
  }

  // Waits for so many entries more, whatever they say, and returns them.
  async more(count, ms) {
    this.count += count;
    await this.it.untilEntries(this.count, ms);
    return (await this.it.entries()).slice(-count);
  }

  // Compares the tape from an entry on, and the pictures on it. All rows since then are of this table.
  async compare(table, from) {
    const rows = await this.it.run('rows');
    const deck = `${table}\n---\nline,state,ms\n${rows.join('\n')}\n`;
    const page = linesOf(this.mfbank, deck).slice(0, -1);
    const tape = inOrder((await this.it.entries()).slice(from));
    is(`the ${rows.length} rows that the page gave, by mfbank: its page is the tape`, tape, page);
    const pictures = await this.pictures(from);
    if (pictures.length === 0) return;
    const names = pictures.map(({ name }) => name);
    const heard = heardOf(linesOf(this.mfhear, deck)).filter(({ name }) => names.includes(name));
    is(`${pictures.length} refused attempts are drawn as mfhear reports them`, pictures, heard);
  }

  // What the pictures of the tape say: of each its line and number, the digits, and what spoiled the last one.
  async pictures(from) {
    const all = await this.it.run(`[...document.querySelectorAll('#entries li')].slice(${from})
      .filter((it) => it.querySelector('.attempt')).map((it) => ({
        entry: it.querySelector('code').textContent,
        digits: [...it.querySelectorAll('.figure:not(.open)')].map((figure) => figure.textContent),
        fault: it.querySelector('.reason.bad')?.textContent ?? '',
        isCut: it.querySelector('.figure.open') !== null,
      }))`);
    return inOrder(all, ({ entry }) => entry).map(({ entry, digits, fault, isCut }) => {
      const name = entry.split(' ').slice(0, 2).map(Number).join(' ');
      return { name, digits: digits.join('').replace('×', 'x'), fault, isCut };
    });
  }
}

const linesOf = (program, input) => execFileSync(program, { input }).toString().trimEnd().split('\n');

// Entries in the order of a page: by their lines, and then by their numbers.
const inOrder = (list, entryOf = (it) => it) => [...list].sort((a, b) => {
  const [one, other] = [a, b].map((it) => entryOf(it).split(' ').map(Number));
  return one[0] - other[0] || one[1] - other[1];
});

// The attempts of a report of mfhear, in its order: the digits that the register took, the fault of a spoiled one, and
// whether pulses were left when the line hung up. What came after a refusal is in no picture.
function heardOf(lines) {
  const heard = [];
  let isAbandoned = false;
  for (const line of lines) {
    const heading = /^line (\d+), attempt (\d+) /.exec(line);
    const digit = /^ +([0-9x]) +[0-9]+ .*?(?:  ([a-z].*))?$/.exec(line);
    if (heading) {
      heard.push({ name: `${Number(heading[1])} ${heading[2]}`, digits: '', fault: '', isCut: false });
      isAbandoned = line.includes('ABANDONED');
    } else if (digit && !digit[2]?.startsWith('ignored')) {
      heard.at(-1).digits += digit[1];
      heard.at(-1).fault = (digit[2] ?? '').replace(/ at [0-9].*/, '');
    } else if (isAbandoned && /^ *pulses that no pause ended/.test(line)) {
      heard.at(-1).isCut = true;
    }
  }
  return heard;
}

module.exports = { TapeTry };
