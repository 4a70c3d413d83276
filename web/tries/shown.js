// A call that is explained stage by stage, a museum's screen, and the page inside another one.
'use strict';
const { is } = require('./checks.js');
const { sleep } = require('./browser.js');

const BY_411 = 'KEYED 0003 KP:1100+1700 4:700+1300 1:700+900 1:700+900 ST:1500+1700';
const TITLES = ['The dial runs back', 'A digit is stored', 'The number is complete', 'It is keyed to the next office',
  'The far end has heard it'];
const IS_OPEN = '!document.getElementById("explained").hidden';

async function tryExplained(it) {
  await it.visit('#quiet');
  await it.click('#explain');
  is('the sound is on', await it.run('document.getElementById("sound").ariaPressed'), 'true');
  const titles = [];
  for (const _ of TITLES) {
    await it.until(IS_OPEN, 30000);
    titles.push(await it.text('#explained-title'));
    if (titles.length === 1) is('three breaks are seen first', await it.text('.counting b').catch(() => ''), '2');
    const told = await it.texts('.told');
    const words = await it.text('#explained-words');
    if (told.some((text) => text.includes(words.slice(0, 40)))) is('the words are their own', words, '');
    await sleep(100); // the next frame draws the moment at which time was halted
    const angle = await it.run('document.querySelector(".dial g").getAttribute("transform")');
    await sleep(300);
    const later = await it.run('document.querySelector(".dial g").getAttribute("transform")');
    if (angle !== later) is('time stands still', later, angle);
    await it.click('#next');
  }
  is('a call is explained stage by stage', titles, TITLES);
  is('and keyed', await it.entries(), [`0007 1 ${BY_411}`]);
  is('then time runs as ever', [await it.run(IS_OPEN), await it.run('document.getElementById("pace").value')], [false, '1']);
  await it.visit('#quiet');
  await it.click('#explain');
  await it.until(IS_OPEN, 30000);
  await it.click('#enough');
  await it.untilEntries(1, 8000);
  is('it can be left', await it.entries(), [`0007 1 ${BY_411}`]);
}

// Each stage that is explained is seen whole, beside the dial, and the words do not lie over them.
async function tryExplainedScreens(it) {
  for (const [width, height] of [[390, 844], [844, 390], [820, 1180], [1024, 768], [1280, 720], [1280, 900],
    [1920, 1080]]) {
    await it.look({ width, height });
    await it.visit('#quiet');
    await it.click('#explain');
    const hidden = [];
    for (const title of TITLES) {
      await it.until(`${IS_OPEN} && document.getElementById('explained-title').textContent === '${title}'`, 30000);
      hidden.push(...await it.run(`(() => {
        const of = (name) => document.querySelector(name).getBoundingClientRect();
        const over = of('#explained');
        return ['.dial', '.explained'].filter((name) => {
          const it = of(name);
          const isCovered = it.bottom > over.top && it.top < over.bottom && it.right > over.left && it.left < over.right;
          return isCovered || it.top < 0 || it.bottom > innerHeight;
        });
      })()`));
      await it.click('#next');
    }
    is(`what is explained is seen at ${width} by ${height}`, hidden, []);
  }
  await it.look();
}

async function tryKiosk(it) {
  await it.visit('#kiosk=4');
  await it.untilEntries(1, 8000);
  is('a kiosk shows a call', await it.entries(), [`0007 1 ${BY_411}`]);
  const seen = await it.run(`['#table', '#deck', '#ear', '#keep'].filter((name) => {
    return document.querySelector(name).getClientRects().length > 0;
  })`);
  is('it has no text to write in', seen, []);
  const chosen = `['pace', 'noise', 'sound'].map((id) => {
    const it = document.getElementById(id);
    return it.value || it.ariaPressed;
  })`;
  const atFirst = await it.run(chosen);
  await it.dial('0');
  is('the first touch turns the sound on', (await it.run(chosen))[2], 'true');
  await it.choose('#pace', '0.1');
  await it.choose('#noise', '32000');
  await it.until('document.querySelectorAll("#entries li").length === 0', 8000);
  is('untouched, it is as at first', await it.run(chosen), atFirst);
  await it.untilEntries(1, 8000);
  is('and shows a call again', await it.entries(), [`0007 1 ${BY_411}`]);
  const links = '[...document.querySelectorAll("a[href]")].filter((it) => it.getClientRects().length > 0).length';
  is('nothing on it leads away', await it.run(links), 0);
  await it.visit('#kiosk=999999999,quiet');
  is('whatever its seconds are, it is one', await it.run('document.documentElement.className'), 'kiosk');
}

// On a museum's screen the words and the dial are larger than on a desk.
async function tryLarger(it) {
  const sizes = [];
  await it.look({ width: 1920, height: 1080 });
  for (const address of ['#quiet', '#quiet,kiosk']) {
    await it.visit(address);
    sizes.push(await it.run(`['.dial', '.told', '#demo'].map((name) => {
      const it = document.querySelector(name);
      return name === '.dial' ? it.getBoundingClientRect().width : parseFloat(getComputedStyle(it).fontSize);
    })`));
  }
  const [desk, museum] = sizes;
  is(`a museum's screen is larger: ${museum.map(Math.round)} for ${desk.map(Math.round)}`,
    museum.every((size, i) => size > 1.25 * desk[i]), true);
  await it.look();
}

async function tryEmbedded(it) {
  await it.visit('#quiet,embed');
  const seen = await it.run(`['header', 'footer'].filter((name) => {
    return document.querySelector(name).getClientRects().length > 0;
  })`);
  is('inside another page it has neither head nor foot', seen, []);
}

async function tryShown(it) {
  await tryExplained(it);
  await tryExplainedScreens(it);
  await tryKiosk(it);
  await tryLarger(it);
  await tryEmbedded(it);
  await it.visit('#quiet');
}

module.exports = { tryShown };
