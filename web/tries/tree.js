// The page as a screen reader's tree has it: its landmarks and headings, the dial as one group of ten holes, what is
// pressed, checked, expanded or refused, and what is said of itself.
'use strict';
const { is } = require('./checks.js');

const LANDMARKS = ['banner', 'main', 'contentinfo'];
const HOLES = ['1', '2', '3', '4', '5', '6', '7', '8', '9', '0'];

const roleOf = (node) => node.role?.value;
const nameOf = (node) => node.name?.value ?? '';
const valueOf = (node, name) => node.properties?.find((property) => property.name === name)?.value.value;

class Tree {
  constructor(nodes) {
    this.all = new Map(nodes.map((node) => [node.nodeId, node]));
    this.seen = nodes.filter((node) => !node.ignored);
  }

  of(...roles) { return this.seen.filter((node) => roles.includes(roleOf(node))); }

  named(role, name) { return this.of(role).find((node) => nameOf(node) === name); }

  // What stands below a node, in order.
  below(node) {
    return node.childIds.flatMap((id) => {
      const child = this.all.get(id);
      return child ? [child, ...this.below(child)] : [];
    });
  }
}

const treeOf = async (it) => new Tree(await it.tree());

// No level is left out on the way down.
function headingsOf(tree) {
  const levels = tree.of('heading').map((node) => valueOf(node, 'level'));
  const leaps = levels.filter((level, i) => level > (levels[i - 1] ?? 0) + 1);
  return [levels.filter((level) => level === 1).length, leaps.length];
}

async function tryOpened(it) {
  const tree = await treeOf(it);
  is('one of each landmark', LANDMARKS.map((role) => tree.of(role).length), [1, 1, 1]);
  is('one first heading, and no level is left out', headingsOf(tree), [1, 0]);
  const regions = tree.of('region').map(nameOf);
  is(`the ${regions.length} regions have names of their own`, new Set(regions).size, regions.length);
  const dial = tree.named('group', 'Dial of line 7');
  const holes = tree.below(dial).filter((node) => roleOf(node) === 'button').map(nameOf);
  is('the dial is a group of ten holes', holes, HOLES.map((digit) => `Dial ${digit} on line 7`));
  const images = tree.of('image', 'img', 'Canvas').filter((node) => !nameOf(node));
  is('each picture has its words', images.length, 0);
  const hidden = await it.run(`[...document.querySelectorAll('[aria-hidden="true"]')].filter((it) => {
    return it.matches('a, button, input, select, textarea, [tabindex]')
      || it.querySelector('a, button, input, select, textarea, [tabindex="0"]');
  }).length`);
  is('nothing that takes the keys is hidden from the tree', hidden, 0);
  is('no order of its own for Tab', await it.run('document.querySelectorAll("[tabindex]:not([tabindex=\\"0\\"])'
    + ':not([tabindex=\\"-1\\"])").length'), 0);
}

async function pressed(it) {
  const sound = (await treeOf(it)).of('button').find((node) => /^Sound/.test(nameOf(node)));
  return valueOf(sound, 'pressed');
}

async function tryStates(it) {
  is('the sound is told as off', await pressed(it), 'false');
  await it.click('#sound');
  is('and as on', await pressed(it), 'true');
  await it.click('#sound');
  const [keys] = (await treeOf(it)).of('checkbox');
  const checked = [nameOf(keys), valueOf(keys, 'checked')];
  is('digits on the keyboard are checked', checked, ['Digits on the keyboard dial', 'true']);
  await it.run('document.getElementById("routes").value = "[[route]]\\ncode = \\"234\\"\\ntrunk = 10000\\n";'
    + 'document.getElementById("routes").dispatchEvent(new Event("input"))');
  await it.until('document.getElementById("fault").textContent !== ""');
  const tree = await treeOf(it);
  const table = tree.named('textbox', 'The route table');
  is('the table is told as invalid', valueOf(table, 'invalid'), 'true');
  is('with its fault, which describes it', /Refused: route 1 has a wrong trunk/.test(table.description?.value ?? ''), true);
  is('and is an alert', tree.of('alert').length > 0, true);
}

async function tryRow(it) {
  await it.click('#row');
  const tree = await treeOf(it);
  const radios = tree.of('radio').map((node) => [nameOf(node), valueOf(node, 'checked')]);
  is('of three telephones one is chosen', radios, [['Line 7', 'true'], ['Line 8', 'false'], ['Line 9', 'false']]);
  const hooks = tree.of('button').map(nameOf).filter((name) => /^Lift the receiver/.test(name));
  is('each has its hook', hooks, [7, 8, 9].map((line) => `Lift the receiver, line ${line}`));
  await it.click('#row');
}

async function tryTree(it) {
  await it.look();
  await it.visit('#quiet');
  await tryOpened(it);
  await tryStates(it);
  await it.visit('#quiet');
  await tryRow(it);
}

module.exports = { tryTree };
