// The route tables with which the page begins. They go on from those of examples/ with every other code of an area, an
// office or a service but one, so that whatever number a visitor dials is keyed.

const FIRST_CODE = 200;
const LAST_CODE = 999;
const REFUSED_CODE = '555';
const OTHER_CODES = `
# Each other code goes by the trunk group of its own number, but for ${REFUSED_CODE}: its calls are refused.`;

// A table of all codes, of one that has some.
function withAllCodes(table) {
  const codes = [...table.matchAll(/^code = "([0-9]+)"$/gm)].map(([, code]) => code);
  const known = new Set([...codes, REFUSED_CODE]);
  const of = (code) => `\n[[route]]\ncode = "${code}"\ntrunk = ${Number(code) || 1}`;
  const others = Array.from({ length: LAST_CODE - FIRST_CODE + 1 }, (_, i) => String(FIRST_CODE + i));
  const added = ['0', ...others].filter((code) => !known.has(code)).map(of).join('');
  return `plan = 10\n${table.trimEnd()}\n${OTHER_CODES}${added}\n`;
}
