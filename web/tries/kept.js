// What a visitor takes away: a link that opens with its call, the sound of a call, and the deck of what was dialled.
'use strict';
const { execFileSync } = require('child_process');
const { is } = require('./checks.js');
const { sleep } = require('./browser.js');

// What stands behind a page's address; the number that the big button then dials, or what is said of the link.
const OPENS = 'Dial 411, and listen';
const LINKS = [
  ['#quiet,dial=2345678', '234 5678'], ['#quiet,dial=PE6-5000', '736 5000'], ['#quiet,dial=0', '0'],
  ['#dial=%20(234)%20567.8', '234 5678'], ['#dial=234+5678&quiet', '234 5678'], ['?dial=411#quiet', '411'],
  ['#dial=1-212-555-1234', '212 555 1234'], ['#quiet,dial=', '', ''], ['#quiet', '', ''],
  ['#quiet,dial=23456789012', '', '23456789012'], ['#quiet,dial=23x*', '', '23x*'], ['#quiet,dial=%', '', '%'],
  ['#quiet,dial=%E0%A4%A', '', '%E0%A4%A'],
];
const SIZES = [[320, 568], [360, 740], [390, 844], [768, 1024], [820, 1180], [844, 390], [1024, 768], [1280, 720],
  [1280, 900], [1920, 1080], [2560, 1440]];

// Keeps what is saved in place of handing it to the browser.
const KEEP = `window.saved = [];
  saveFile = (name, content) => saved.push({ name, content: typeof content === 'string' ? content
    : [...new Uint8Array(content)] });`;

async function tryLinks(it) {
  for (const [address, number, wrong = ''] of LINKS) {
    await it.visit(address);
    const words = number ? `Hear this call: ${number}` : OPENS;
    const said = wrong && `The link asks for “${wrong}”. A number has one to ten digits, or letters of the dial.`;
    is(`a link ${address}`, [await it.text('#demo-words'), await it.text('#linked')], [words, said]);
  }
  await it.visit('#dial=411');
  await sleep(1500);
  is('nothing is dialled before it is asked for', await it.entries(), []);
  await it.click('#demo');
  await it.untilEntries(1);
  is('and then it is', /KP:1100\+1700 4:700\+1300 1/.test(await it.text('#entries code')), true);
  await it.run('navigator.clipboard.writeText = async (text) => { window.copied = text; }');
  await it.click('.share');
  await it.until('window.copied');
  is('its link is copied', await it.run('copied.replace(/.*#/, "#")'), '#dial=411');
  await it.run('location.hash = "#dial=0"');
  await it.until('/: 0$/.test(document.getElementById("demo-words").textContent)');
  await it.click('#demo');
  await it.untilEntries(2);
  is('one that is followed in the open page is heard', / KEYED 0001 /.test((await it.entries())[1]), true);
}

// Whoever follows a link sees its button, and where the tones will be.
async function tryLinkedScreens(it) {
  for (const [width, height] of SIZES) {
    await it.look({ width, height });
    for (const address of ['#dial=PE6-5000', '#dial=PE6-5000,embed', '#dial=PE6-5000,kiosk']) {
      await it.visit(address);
      const { bottom, top, right } = await it.run('document.getElementById("demo").getBoundingClientRect().toJSON()');
      is(`${address} is seen at ${width} by ${height}`, top >= 0 && bottom <= height && right <= width, true);
    }
  }
  await it.look();
}

// Of 234 5678 the sound is the one that mftone writes. A second call is under way when the deck is saved.
async function trySaved(it, read, mfbank) {
  await it.visit('#quiet');
  await it.run(KEEP);
  await it.dial('2345678');
  await it.untilEntries(1);
  await it.until('document.querySelector("#entries li:last-child .far")');
  await it.click('#save-sound');
  const [{ name, content }] = await it.run('saved.splice(0)');
  is('the sound is saved', [name, Buffer.from(content).equals(read('seven_digits.wav'))], ['2345678.wav', true]);
  await it.hangUp();
  await it.dial('23');
  await it.untilNumber('23');
  await compareDeck(it, mfbank, 'the deck of a call, while another is under way');
}

// The deck as it is saved: its page by mfbank is the tape.
async function compareDeck(it, mfbank, what) {
  await it.run(KEEP);
  await it.run('document.getElementById("save-deck").click()');
  const [{ content }] = await it.run('saved');
  const page = execFileSync(mfbank, { input: content }).toString().trimEnd().split('\n').slice(0, -1);
  is(what, [...await it.entries()].sort(), [...page].sort());
}

async function tryKept(it, read, mfbank) {
  await tryLinks(it);
  await tryLinkedScreens(it);
  await trySaved(it, read, mfbank);
  await it.visit('#quiet');
}

module.exports = { tryKept, compareDeck };
