// Whatever a visitor may do, in any order: keys, hooks, buttons, other dials, other paces, one telephone or three, by
// chance. The tape is what mfbank says of the rows that the page gave, and nothing is said in the console.
'use strict';
const { sleep } = require('./browser.js');
const { is } = require('./checks.js');
const { seeded } = require('./seeds.js');
const { compareDeck } = require('./kept.js');
const { TapeTry } = require('./tape.js');

const SEED = 41;
const MOST_MS = 30000;
const KINDS = ['good', 'good', 'worn', 'sticky', 'extra', 'fast'];

// The things that a visitor may do, each as often as it stands here.
function actsOf(it, { throwOf, oneOf, happens }) {
  const clickOne = (selector, count) => it.run(`document.querySelectorAll('${selector}')[${throwOf(count)}].click()`);
  const press = () => it.key(String(throwOf(10)));
  const wait = () => sleep(throwOf(2000));
  return [
    press, press, press, wait, wait,
    () => it.lift(),
    () => clickOne('.hook', 3),
    () => clickOne('.choice', 3),
    () => clickOne('[data-number]', 12),
    () => it.click('#demo'),
    () => it.click('#sound'),
    () => it.click('#row'),
    () => it.click('#example'),
    () => it.choose('.kind', oneOf(...KINDS), throwOf(3)),
    () => it.choose('#pace', oneOf('0.1', '1', '1', '20')),
    () => it.look({ width: oneOf(320, 390, 800, 1280, 1600), dark: happens(2), still: happens(3) }),
  ];
}

// Hangs up what is up, and what a button that was pressed before lifts meanwhile.
async function hangAllUp(it) {
  const hang = `[...document.querySelectorAll('.hook.up')].map((hook) => hook.click()).length`;
  for (let looks = 0; looks < 2;) {
    looks = await it.run(hang) > 0 ? 0 : looks + 1;
    await sleep(1500);
  }
}

async function tryChance(it, table, programs) {
  await it.visit('#quiet');
  await it.listen();
  const dice = seeded(SEED);
  const acts = actsOf(it, dice);
  let count = 0;
  for (const end = Date.now() + MOST_MS; Date.now() < end; count++) await dice.oneOf(...acts)();
  await it.choose('#pace', '1');
  await hangAllUp(it);
  const entries = await it.entries();
  is(`${entries.length} entries of ${count} acts by chance`, entries.length > 5, true);
  await new TapeTry(it, programs).compare(table, 0);
  await compareDeck(it, programs.mfbank, 'and so is that of the deck that is saved');
  await it.look();
  await it.visit('#quiet');
}

module.exports = { tryChance };
