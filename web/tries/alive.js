// The telephone is never dead: what is dialled after a call, or during a shown one, begins a new one, whatever ended
// that; taps on a dial that turns are dialled; a second finger does nothing; a fault in a picture stops no dial; and
// where nothing moves no picture is asked for, in any state.
'use strict';
const { is } = require('./checks.js');
const { sleep } = require('./browser.js');
const { BY_INFORMATION, BY_OPERATOR } = require('./calls.js');

const kindsOf = async (it) => (await it.entries()).map((entry) => entry.split(' ').slice(2).join(' '));

// ---- after a call

// A call of 411 is over, in each way that a visitor brings about: the receiver is still up, or hung up by itself.
const ENDED = [
  ['a call by keys', (it) => it.dial('411'), BY_INFORMATION],
  ['a shown call', (it) => it.click('[data-number="411"]'), BY_INFORMATION],
  ['a refused call', (it) => it.click('[data-number="5551234"]'), 'REFUSED UNKNOWN 7'],
];

const NEXT = [
  ['a key', (it) => it.key('0')],
  ['a tap', (it) => it.click('[data-digit="0"]')],
  ['a turn of the dial', (it) => it.turnByMouse('0', 330)],
  ['a turn by a finger', (it) => it.turnByFinger('0', 330)],
];

async function tryAfter(it) {
  for (const [what, call, entry] of ENDED) {
    for (const [how, next] of NEXT) {
      await it.visit('#quiet');
      await call(it);
      await it.untilEntries(1);
      await next(it);
      await it.untilEntries(2).catch(() => {});
      is(`after ${what} ${how} begins another one`, await kindsOf(it), [entry, BY_OPERATOR]);
    }
  }
  await it.visit('#quiet');
  await it.turnByMouse('0', 330);
  await it.untilEntries(1).catch(() => {});
  is('so does a turn of the dial while the receiver is down', await kindsOf(it), [BY_OPERATOR]);
}

async function tryShownCalls(it) {
  const isDown = 'document.querySelector(".hook.up") === null';
  await it.visit('#quiet');
  await it.click('#demo');
  await it.until('document.querySelector("#entries li:last-child .far")');
  is('a shown call is still seen when the far end has heard it', await it.run(isDown), false);
  await it.until(isDown, 4000).catch(() => {});
  is('and hangs up by itself', [await it.run(isDown), await it.text('.number')], [true, '411']);
  await it.dial('411');
  await it.untilEntries(2);
  await it.until('document.querySelector("#entries li:last-child .far")');
  await sleep(4000);
  is('a call of the visitor does not', await it.run(isDown), false);
  await it.soundAgain();
  await it.click('[data-number="2345678"]');
  await it.untilEntries(3);
  is('and one that sounds again ends no later one', / KEYED 0017 /.test((await it.entries())[2]), true);
}

// ---- during a call

// What is dialled while a shown call is under way spoils neither.
async function tryMeanwhile(it) {
  for (const [what, shown] of [['the opening call', () => it.visit('')],
    ['a shown call', async () => { await it.visit('#quiet'); await it.click('[data-number="411"]'); }]]) {
    await shown();
    await it.dial('0');
    await it.untilEntries(2).catch(() => {});
    is(`a key during ${what} begins another one after it`, await kindsOf(it), [BY_INFORMATION, BY_OPERATOR]);
  }
  await it.visit('#dial=23');
  await it.click('#demo');
  await it.untilNumber('2');
  await it.dial('45678');
  await it.untilEntries(1);
  is('a number of a link that is not whole goes on', / KEYED 0017 /.test((await it.entries())[0]), true);
}

// Who taps reads the figures, which stand still while the holes turn.
async function tryTaps(it) {
  await it.visit('#quiet');
  const places = [];
  for (const digit of '411') places.push(await it.middle(`[data-digit="${digit}"]`));
  for (const [x, y] of places) {
    await it.mouse('mousePressed', x, y);
    await it.mouse('mouseReleased', x, y);
    await sleep(300);
  }
  await it.untilEntries(1).catch(() => {});
  is('taps on a dial that turns are dialled', await kindsOf(it), [BY_INFORMATION]);
}

// ---- two fingers

async function tryFingers(it) {
  await it.visit('#quiet');
  await it.lift();
  const [x, y] = await it.middle('.dial');
  const box = await it.run('document.querySelector(".dial").getBoundingClientRect().width');
  const at = (degrees, part) => {
    const angle = (degrees - 90) * Math.PI / 180;
    return { x: x + part * box * Math.cos(angle), y: y + part * box * Math.sin(angle) };
  };
  const touch = (type, ...touchPoints) => it.send('Input.dispatchTouchEvent', { type, touchPoints });
  const from = 128 - 300;      // the hole of the 9, ten steps before the stop
  const finger = (degrees) => ({ id: 1, ...at(from + degrees, 0.35) });
  const palm = { id: 2, ...at(180, 0.42) };
  await touch('touchStart', finger(0));
  for (let turned = 10; turned <= 150; turned += 10) await touch('touchMove', finger(turned));
  await touch('touchStart', finger(150), palm);
  await touch('touchMove', finger(150), { ...palm, x: palm.x + 6 });
  // a point that is no more named is lifted
  for (let turned = 160; turned <= 300; turned += 10) await touch('touchMove', finger(turned));
  await touch('touchEnd');
  await it.until('document.querySelector(".number").textContent !== ""');
  is('a palm on the dial ends no digit', await it.text('.number'), '9');
}

// ---- a fault

// Each throws once, in mid-call.
const FAULTS = ['Telephone.prototype, "showState"', 'Telephone.prototype, "rowTaken"', 'Trace.prototype, "note"',
  'Sender.prototype, "move"'];

async function tryFaults(it) {
  for (const place of FAULTS) {
    await it.visit('#quiet');
    await it.lift();
    await it.dial('411');
    await it.untilNumber('4');
    await it.run(`(([type, name]) => {
      const { [name]: whole } = type;
      type[name] = function () { type[name] = whole; throw new Error('a fault that is wanted'); };
    })([${place}])`);
    // nothing more is pressed: that would wake the page
    await it.untilEntries(1, 8000).catch(() => {});
    is(`a fault in ${place.replace(/[",]/g, '')} stops no call`, await kindsOf(it), [BY_INFORMATION]);
  }
  const said = it.messages.splice(0);
  const wanted = said.filter((text) => /a fault that is wanted/.test(text)).length;
  is('and each is said in the console', [said.length, wanted], [FAULTS.length, FAULTS.length]);
}

// ---- at rest

// Pictures are counted, and an hour passes at once where it is asked for.
const WATCH = `
  window.pictures = 0;
  const ask = requestAnimationFrame;
  window.requestAnimationFrame = (what) => { pictures += 1; return ask(what); };
  window.past = 0;
  const now = performance.now.bind(performance);
  performance.now = () => now() + past;`;
const HOUR = 3600000;

const untilFar = (it) => it.until('document.querySelector("#entries li:last-child .far")');

const STATES = [
  ['as it opens', async () => {}],
  ['the receiver is up', (it) => it.lift()],
  ['a digit is dialled', async (it) => { await it.dial('4'); await it.untilNumber('4'); }],
  ['a call is keyed', async (it) => { await it.dial('411'); await it.untilEntries(1); await untilFar(it); }],
  ['it was hung up', async (it) => { await it.dial('411'); await it.untilEntries(1); await it.hangUp(); }],
  ['a shown call is over', async (it) => { await it.click('#demo'); await it.untilEntries(1); await untilFar(it); }],
  ['a call is refused', async (it) => { await it.click('[data-number="5551234"]'); await it.untilEntries(1); }],
  ['three calls are over', async (it) => {
    await it.click('#row');
    await it.click('#demo');
    await it.untilEntries(3);
    await it.until('document.querySelectorAll("#entries .far").length === 3');
  }],
  ['a call is explained', async (it) => {
    await it.click('#explain');
    await it.until('!document.getElementById("explained").hidden', 30000);
  }],
];

async function tryRests(it) {
  for (const [what, bringAbout] of STATES) {
    await it.visitWith(WATCH);
    await bringAbout(it);
    await sleep(2500);
    // the first one may bring a time-out, and the second one ends its trace
    for (const hour of [1, 2]) {
      await it.run(`past += ${HOUR}`);
      await sleep(800 * hour);
    }
    const before = await it.run('pictures');
    await sleep(2500);
    is(`no picture is drawn hours after: ${what}`, await it.run('pictures') - before, 0);
  }
}

async function tryAlive(it) {
  await it.send('Emulation.setTouchEmulationEnabled', { enabled: true, maxTouchPoints: 5 });
  await tryAfter(it);
  await tryShownCalls(it);
  await tryMeanwhile(it);
  await tryTaps(it);
  await tryFingers(it);
  await it.send('Emulation.setTouchEmulationEnabled', { enabled: false });
  await tryFaults(it);
  await tryRests(it);
}

module.exports = { tryAlive };
