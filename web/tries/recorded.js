// Recordings that a visitor drops on the page or chooses, and a microphone before which one is played.
'use strict';
const path = require('path');
const { is } = require('./checks.js');
const { keysOfPage } = require('./ears.js');

const WAV = 'seven_digits.wav';

const ended = (it, name) => it.until(`document.getElementById('listening').textContent.startsWith('${name}')`);

async function tryRecordings(it, examples, read) {
  const wanted = keysOfPage(read('seven_digits.page'));
  await it.chooseFile('#recording', path.join(examples, WAV));
  await ended(it, WAV);
  is(`a recording is heard: ${await it.text('#listening')}`, await it.texts('#keyings code'), [wanted]);
  // a KP of 100 ms and keys of 68, as the ear has lengths: in steps of 2.5 ms, and the last step is not whole
  const times = /^from 0.50 s; tones of 6[5-8] to (98|100) ms, the faintest at −7 dBm0$/;
  is('its keys have times and levels', (await it.texts('#keyings span')).map((words) => times.test(words)), [true]);
  await it.run(`(async () => {
    document.getElementById('listening').textContent = '';
    const bytes = Uint8Array.from(atob('${read(WAV).toString('base64')}'), (letter) => letter.charCodeAt(0));
    const data = new DataTransfer();
    data.items.add(new File([bytes], 'dropped.wav', { type: 'audio/wav' }));
    document.body.dispatchEvent(new DragEvent('drop', { dataTransfer: data, bubbles: true, cancelable: true }));
  })()`);
  await ended(it, 'dropped.wav');
  is('one that is dropped is heard too', await it.texts('#keyings code'), [wanted]);
  await it.run(`loudest = ((whole) => (buffer) => {
    const first = buffer.getChannelData(0);
    const channels = [first, first.map((sample) => -sample)];
    return whole({ numberOfChannels: 2, getChannelData: (nth) => channels[nth] });
  })(loudest)`);
  await it.chooseFile('#recording', path.join(examples, WAV));
  await ended(it, WAV);
  is('two channels that sum to silence are heard', await it.texts('#keyings code'), [wanted]);
  await it.chooseFile('#recording', path.join(examples, 'routes.toml'));
  await ended(it, 'routes.toml is no');
  is('what is no recording is refused', await it.texts('#keyings code'), []);
}

// The browser is given the recording for a microphone, over and over.
async function tryMicrophone(it, read) {
  const wanted = keysOfPage(read('seven_digits.page'));
  await it.click('#microphone');
  await it.until(`[...document.querySelectorAll('#keyings code')].some((it) => it.textContent === '${wanted}')`);
  is('a microphone is heard', await it.text('#microphone'), 'stop listening');
  await it.click('#microphone');
  is('and is stopped', await it.text('#microphone'), 'listen by the microphone');
}

module.exports = { tryRecordings, tryMicrophone };
