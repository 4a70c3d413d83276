// The tape: the entries of all lines in the order in which they came, each in mfbank's words, below it what the far
// end heard of a keyed one, and the picture of the attempt of a refused one.

const MOST_ENTRIES = 60;

class Tape {
  constructor(roll, list) { Object.assign(this, { roll, list }); }

  add(text, words, isRefused) {
    const entry = make('li', isRefused ? { class: 'refused' } : {}, this.list);
    make('span', {}, entry, words);
    make('code', {}, entry, text);
    if (this.list.children.length > MOST_ENTRIES) this.list.firstElementChild.remove();
    this.roll.scrollTop = this.roll.scrollHeight;
    return entry;
  }

  // What the far end heard of the keys of an entry. A call that sounds once more is heard once more.
  showHeard(entry, keys, heard) {
    const line = entry.querySelector('.far') ?? make('span', { class: 'far' }, entry);
    const isSame = heardText(heard) === keys.map(keyName).join(' ');
    line.classList.toggle('wrong', !isSame);
    line.textContent = `The far end heard ${heardText(heard)}${isSame ? '' : ', which is not what was keyed'}`;
    this.roll.scrollTop = this.roll.scrollHeight;
  }

  // Only the last picture is open. Where it is wider than the page its end is seen, since that is why it was refused.
  addPicture(entry, picture) {
    this.list.querySelectorAll('details[open]').forEach((details) => { details.open = false; });
    const details = make('details', { open: '' }, entry);
    make('summary', {}, details, 'What the register heard');
    const words = { class: 'picture', tabindex: 0, role: 'group', 'aria-label': 'Picture of the attempt' };
    const frame = make('div', words, details);
    frame.append(picture);
    frame.scrollLeft = frame.scrollWidth;
    this.roll.scrollTop = this.roll.scrollHeight;
  }
}
