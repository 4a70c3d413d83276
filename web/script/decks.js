// Decks that are dropped or chosen: each is read by a worker, and its page is shown.

const MOST_SHOWN_LINES = 2000;
const MOST_DECK_BYTES = 16777216;

class Decks {
  constructor(wasm) {
    this.wasm = wasm;
    this.worker = null;
    this.turn = 0;
    this.isRefused = false;
    // A worker takes its script as an address. This one's is made of the page's own text.
    const texts = [$('read-texts').textContent, $('worker').textContent];
    this.script = URL.createObjectURL(new Blob(texts, { type: 'text/javascript' }));
  }

  async read(name, file) {
    this.stop('');
    const turn = ++this.turn;
    // of a deck that is too long one byte more than the most is enough to say so
    const bytes = await file.slice(0, MOST_DECK_BYTES + 1).arrayBuffer().catch(() => null);
    if (turn !== this.turn) return;
    if (!bytes) {
      this.stop(`${name} could not be read.`);
      return;
    }
    this.begin(name, new Uint8Array(bytes));
  }

  begin(name, bytes) {
    const began = performance.now();
    $('read').textContent = `Reading ${name}`;
    const given = ({ page, fault, told = [] }) => {
      const seconds = ((performance.now() - began) / 1000).toFixed(1);
      this.stop(fault ? `${name} is refused.` : `${name}: read in ${seconds} s.`);
      if (fault) this.showFault(fault);
      else this.showPage(name, page);
      this.isRefused = Boolean(fault);
      showPlaces($('deck-places'), told);
    };
    const failed = () => this.stop('The deck could not be read by this browser.');
    try {
      this.worker = new Worker(this.script);
    } catch {
      // without workers the page stands still while it reads
      pageOfDeck(this.wasm, bytes).then(given, failed);
      return;
    }
    this.worker.onmessage = ({ data }) => given(data);
    this.worker.onerror = failed;
    this.worker.postMessage({ wasm: this.wasm, bytes }, [bytes.buffer]);
  }

  stop(words) {
    this.worker?.terminate();
    this.worker = null;
    $('read').textContent = words;
  }

  // A recording came in place of a deck: a refusal that stands here is not of it.
  passOver(name) {
    if (!this.isRefused) return;
    this.stop(`${name} is a recording: the far end’s ear hears it.`);
    this.isRefused = false;
    $('page').textContent = '';
    showPlaces($('deck-places'), []);
  }

  showFault(fault) {
    $('page').textContent = '';
    $('save').hidden = true;
    make('span', { class: 'refused' }, $('page'), `Refused: ${fault}`);
  }

  showPage(name, text) {
    const lines = text.split('\n').slice(0, -1);
    const shown = lines.length > MOST_SHOWN_LINES ? lines.slice(0, MOST_SHOWN_LINES - 1) : lines;
    $('page').textContent = '';
    for (const line of shown) {
      make('span', / REFUSED [A-Z]/.test(line) ? { class: 'refused' } : {}, $('page'), `${line}\n`);
    }
    if (shown.length < lines.length) {
      make('span', {}, $('page'), `… and ${(lines.length - shown.length - 1).toLocaleString('en')} entries more\n`);
      make('span', {}, $('page'), `${lines.at(-1)}\n`);
    }
    URL.revokeObjectURL($('save').href);
    $('save').href = URL.createObjectURL(new Blob([text], { type: 'text/plain' }));
    $('save').download = name.replace(/(\.[^.]*)?$/, '.page');
    $('save').hidden = false;
  }
}
