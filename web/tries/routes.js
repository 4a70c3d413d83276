// The route tables with which the page begins: any number that somebody dials is keyed, and goes on in the next office;
// one code is refused.
'use strict';
const { is } = require('./checks.js');

// The number of a digit's code: 0 alone, a service, seven digits, or ten behind the code of an area.
function numberOf(code) {
  if (code === '0' || /^.11$/.test(code)) return code;
  return code + (/^.[01]/.test(code) ? '2345678' : '1234');
}

// What becomes of each number in both offices, in the words of the page: the codes that are not keyed.
const NOT_KEYED = (codes, numbers) => `(async () => {
  const module = await new Promise((found) => {
    const { take } = Module.prototype;
    Module.prototype.take = function (...row) {
      Module.prototype.take = take;
      found(this);
      return take.apply(this, row);
    };
  });
  const isKeyed = (at, number) => module.codeOf(number, at) !== '';
  const numbers = ${JSON.stringify(numbers)};
  return [module.at.table, module.at.secondTable].map((at) => ${JSON.stringify(codes)}
    .filter((code, i) => !isKeyed(at, numbers[i])));
})()`;

async function tryRoutes(it) {
  await it.visit('#quiet');
  const codes = ['0', ...Array.from({ length: 800 }, (_, i) => String(200 + i))];
  const [first, second] = await it.run(NOT_KEYED(codes, codes.map(numberOf)));
  is('of 801 codes the first office refuses one, and the next one no other', [first, second], [['555'], ['555']]);
  for (const number of ['411', '0', '7365000']) {
    await it.visit('#quiet');
    await it.dial(number);
    await it.until('document.querySelectorAll("#second-entries li").length === 1');
    is(`${number} is keyed, and goes on`, [(await it.entries()).length, await it.text('#second-totals')],
      [1, 'KEYED 1 REFUSED 0']);
  }
  is('no fault is told of either table', [await it.text('#fault'), await it.text('#second-fault'),
    await it.texts('#places p, #second-places p')], ['', '', []]);
}

module.exports = { tryRoutes };
