// What the tries say: a line for each thing that is compared, and at the end how many are wrong.
'use strict';

const MOST_SHOWN = 400;
let wrong = 0;

function is(what, given, wanted) {
  const [one, other] = [given, wanted].map((value) => JSON.stringify(value));
  console.log(`${one === other ? 'ok  ' : 'BAD '} ${what}`);
  if (one === other) return;
  wrong++;
  console.log(`     given  ${one.slice(0, MOST_SHOWN)}\n     wanted ${other.slice(0, MOST_SHOWN)}`);
}

// Ends the run: with status 1 where anything is wrong.
function end() {
  console.log(wrong ? `${wrong} wrong` : 'all as it should be');
  process.exit(wrong ? 1 : 0);
}

module.exports = { is, end };
