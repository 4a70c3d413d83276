// What mfcheck tells of the text lines of a table or a deck: each with its line, in its words.

const PLACE = /^deck:([0-9]+):([0-9]+): /;
const NO_PLACE = /^deck: /;

// Shows the lines of mfcheck. Where `choose` is given, the text line of each is a button, by which it is chosen.
function showPlaces(top, told, choose = null) {
  top.textContent = '';
  for (const text of told) {
    const shown = make('p', {}, top);
    const [place, line, column] = PLACE.exec(text) ?? NO_PLACE.exec(text);
    if (line) {
      shown.append(choose ? chooser(Number(line), choose) : `Line ${line}`, `, column ${column}: `);
    }
    shown.append(text.slice(place.length));
  }
}

function chooser(line, choose) {
  const button = make('button', { type: 'button', class: 'link' }, null, `Line ${line}`);
  button.addEventListener('click', () => choose(line));
  return button;
}
