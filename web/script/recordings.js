// Recordings that are dropped or chosen, and the microphone. The browser makes 8,000 samples a second of them, the
// module's ear hears these, and the next office takes what it hears.

const SAMPLES_A_SECOND = 8000;
const MOST_RECORDING_BYTES = 67108864;
const SAMPLES_A_TURN = 80000;

// What runs beside the page and hands on the samples of a microphone. A page of a file may give it by its text alone.
const MICROPHONE_SCRIPT = `registerProcessor('samples', class extends AudioWorkletProcessor {
  process([[samples]]) {
    if (samples) this.port.postMessage(samples);
    return true;
  }
});`;

const isRecording = (file) => /^(audio|video)\//.test(file.type) || /\.(wav|mp3|m4a|ogg|flac)$/i.test(file.name);
const nextTurn = () => new Promise((done) => { setTimeout(done); });
// Without what a browser does to a voice: it takes tones that go on for noise.
const PLAIN_SOUND = { echoCancellation: false, noiseSuppression: false, autoGainControl: false };

// The loudest channel. A sum of two may be silent.
function loudest(buffer) {
  const channels = Array.from({ length: buffer.numberOfChannels }, (_, i) => buffer.getChannelData(i));
  const levels = channels.map((channel) => channel.reduce((sum, sample) => sum + sample * sample, 0));
  return channels[levels.indexOf(Math.max(...levels))];
}

class Recordings {
  constructor(module, second) {
    Object.assign(this, { module, second, turn: 0, microphone: null, isReading: false });
    this.keyings = new Keyings($('keyings'));
    $('microphone').addEventListener('click', () => (this.isHearing() ? this.stop() : this.listen()));
    $('recording').addEventListener('change', () => {
      const file = $('recording').files[0];
      if (file) this.read(file);
      $('recording').value = '';
    });
  }

  say(words) { $('listening').textContent = words; }

  isHearing() { return this.isReading || this.microphone !== null; }

  showButton() { $('microphone').textContent = this.isHearing() ? 'stop listening' : 'listen by the microphone'; }

  setReading(isReading) {
    this.isReading = isReading;
    this.showButton();
  }

  // What was begun before this is over.
  begin() {
    this.stop();
    this.ear = new Ear(this.module);
    this.trunk = this.second.trunk();
    this.keyings.clear();
    return ++this.turn;
  }

  heard(keys) {
    this.keyings.add(keys);
    this.trunk.take(keys);
  }

  ended() {
    this.heard(this.ear.end());
    this.trunk.end();
  }

  // ---- a recording

  async read(file) {
    const turn = this.begin();
    this.say(`Reading ${file.name}`);
    const samples = await this.samplesOf(file);
    if (turn !== this.turn) return;
    if (!samples) {
      this.say(`${file.name} is no recording that this browser reads, or longer than 64 MB.`);
      return;
    }
    this.setReading(true);
    for (let at = 0, told = 1; at < samples.length; at += SAMPLES_A_TURN) {
      this.heard(this.ear.hear(wholeSamples(samples.subarray(at, at + SAMPLES_A_TURN))));
      await nextTurn();
      if (turn !== this.turn) return;
      const tenth = Math.floor(10 * at / samples.length);
      if (tenth >= told) this.say(`Reading ${file.name}: ${tenth}0 % of it is heard.`);
      told = Math.max(told, tenth + 1);
    }
    this.setReading(false);
    this.ended();
    const seconds = (samples.length / SAMPLES_A_SECOND).toFixed(1);
    this.say(`${file.name}: ${plural(this.keyings.count, 'key')} in ${seconds} s.`);
  }

  async samplesOf(file) {
    if (file.size > MOST_RECORDING_BYTES) return null;
    try {
      const reader = new OfflineAudioContext(1, 1, SAMPLES_A_SECOND);
      return loudest(await reader.decodeAudioData(await file.arrayBuffer()));
    } catch {
      return null;
    }
  }

  // ---- the microphone

  async listen() {
    const turn = this.begin();
    this.say('The browser asks whether this page may listen.');
    const opened = await this.openMicrophone();
    if (turn !== this.turn) {
      opened?.close();
      return;
    }
    if (!opened) {
      this.say('No microphone: it was refused, or this browser gives none to a page of a file or at this rate.');
      return;
    }
    this.microphone = opened;
    this.showButton();
    this.say('Listening.');
  }

  async openMicrophone() {
    const opened = [];
    const close = () => opened.forEach((end) => end());
    try {
      const stream = await navigator.mediaDevices.getUserMedia({ audio: PLAIN_SOUND });
      opened.push(() => stream.getTracks().forEach((track) => track.stop()));
      const audio = new AudioContext({ sampleRate: SAMPLES_A_SECOND });
      opened.push(() => audio.close());
      await audio.audioWorklet.addModule(`data:text/javascript,${encodeURIComponent(MICROPHONE_SCRIPT)}`);
      const samples = new AudioWorkletNode(audio, 'samples');
      samples.port.onmessage = ({ data }) => this.hearNow(data);
      audio.createMediaStreamSource(stream).connect(samples).connect(audio.destination);
      return { close };
    } catch {
      close();
      return null;
    }
  }

  hearNow(samples) {
    if (!this.microphone) return;
    this.heard(this.ear.hear(wholeSamples(samples)));
  }

  stop() {
    this.turn++;
    if (!this.isHearing()) return;
    this.microphone?.close();
    this.microphone = null;
    this.setReading(false);
    this.ended();
    this.say(`${plural(this.keyings.count, 'key')} heard.`);
  }
}
