// The dialling chain of a No. 5 Crossbar office, for programs in JavaScript: mfchain.d.mts has its calls, and
// docs/EMBEDDING.md of mfbank what they do and what is proved of them. web/build makes this file: the modules of the page,
// and the scripts of web/script that draw nothing.

const MODULE = '@module@';
const LOWERED = '@lowered@';
const READER = '@reader@';

@script/memory.js@
@script/module.js@
@script/ear.js@
@script/incoming.js@
@script/reader.js@
@script/chain.js@
export { open, ChainEar as Ear, ChainRegister as Register, Refused };
