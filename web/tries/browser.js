// A Chromium without a window, spoken to over its debugging port: no package is needed. Node 20 wants
// --experimental-websocket for it.
'use strict';
const { spawn } = require('child_process');
const fs = require('fs');
const os = require('os');
const path = require('path');

const sleep = (ms) => new Promise((done) => { setTimeout(done, ms); });

const WORDS = ['--headless', '--no-sandbox', '--disable-gpu', '--hide-scrollbars', '--remote-debugging-port=0'];

const TICKS_A_SECOND = 100;

// What Linux tells of a process: its words, and the fields of its state behind its name; null where it has ended.
function processOf(id) {
  try {
    const stat = fs.readFileSync(`/proc/${id}/stat`, 'utf8');
    const words = fs.readFileSync(`/proc/${id}/cmdline`, 'utf8');
    return { words, fields: stat.slice(stat.lastIndexOf(')') + 2).split(' ') };
  } catch {
    return null;
  }
}

const processes = () => fs.readdirSync('/proc').filter((id) => /^[0-9]+$/.test(id)).map(processOf).filter(Boolean);

// Whether a process is another one, or comes from it.
function descends(id, from) {
  for (let it = id; it > 1; it = Number(processOf(it)?.fields[1] ?? 0)) if (it === from) return true;
  return false;
}

class Browser {
  // sound: a WAV file, which the browser hears over and over in place of a microphone, and asks nobody.
  async open(sound) {
    this.home = fs.mkdtempSync(path.join(os.tmpdir(), 'mfbank-web-'));
    const microphone = ['--use-fake-ui-for-media-stream', '--use-fake-device-for-media-stream',
      `--use-file-for-fake-audio-capture=${path.resolve(sound)}`];
    const words = [...WORDS, ...microphone, `--user-data-dir=${this.home}`, 'about:blank'];
    this.process = spawn(process.env.CHROMIUM || 'chromium', words, { stdio: ['ignore', 'ignore', 'pipe'] });
    const port = await this.port();
    const pages = await (await fetch(`http://127.0.0.1:${port}/json/list`)).json();
    await this.connect(pages.find((page) => page.type === 'page').webSocketDebuggerUrl);
  }

  port() {
    return new Promise((found, failed) => {
      let said = '';
      this.process.stderr.on('data', (data) => {
        said += data;
        const at = /ws:\/\/[^:]+:(\d+)\//.exec(said);
        if (at) found(at[1]);
      });
      this.process.on('exit', () => failed(new Error(said)));
    });
  }

  async connect(address) {
    this.socket = new WebSocket(address);
    await new Promise((done) => { this.socket.addEventListener('open', done); });
    this.sent = 0;
    this.waiting = new Map();
    this.messages = [];
    this.socket.addEventListener('message', (event) => this.receive(JSON.parse(event.data)));
    for (const part of ['Page', 'Runtime', 'Log', 'Accessibility']) await this.send(`${part}.enable`);
  }

  // Keeps whatever the page says in its console, and each fault of its scripts.
  receive({ id, error, result, method, params }) {
    if (id) {
      const [done, failed] = this.waiting.get(id);
      this.waiting.delete(id);
      if (error) failed(new Error(error.message));
      else done(result);
    }
    if (method === 'Runtime.exceptionThrown') this.messages.push(wordsOfFault(params.exceptionDetails));
    if (method === 'Runtime.consoleAPICalled') this.messages.push(params.args.map((arg) => arg.value).join(' '));
    if (method === 'Log.entryAdded') this.messages.push(params.entry.text);
  }

  send(method, params = {}) {
    return new Promise((done, failed) => {
      this.waiting.set(++this.sent, [done, failed]);
      this.socket.send(JSON.stringify({ id: this.sent, method, params }));
    });
  }

  // The page anew. An address that differs in its fragment alone would not be loaded again.
  async go(address, isReady) {
    await this.send('Page.navigate', { url: 'about:blank' });
    await this.send('Page.navigate', { url: address });
    await this.until(`document.readyState === "complete" && ${isReady}`);
  }

  async run(code) {
    const words = { expression: code, awaitPromise: true, returnByValue: true };
    const { result, exceptionDetails } = await this.send('Runtime.evaluate', words);
    if (exceptionDetails) throw new Error(wordsOfFault(exceptionDetails));
    return result.value;
  }

  async until(code, ms = 20000) {
    for (const end = Date.now() + ms; Date.now() < end; await sleep(30)) if (await this.run(code)) return;
    throw new Error(`it never came: ${code}`);
  }

  async key(key, code = key) {
    const text = key.length === 1 ? key : key === 'Enter' ? '\r' : undefined;
    const windowsVirtualKeyCode = { Tab: 9, Enter: 13 }[key];
    await this.send('Input.dispatchKeyEvent', { type: 'keyDown', key, code, text, windowsVirtualKeyCode });
    await this.send('Input.dispatchKeyEvent', { type: 'keyUp', key, code });
  }

  mouse(type, x, y) { return this.send('Input.dispatchMouseEvent', { type, x, y, button: 'left', clickCount: 1 }); }

  touch(type, x, y) {
    return this.send('Input.dispatchTouchEvent', { type, touchPoints: type === 'touchEnd' ? [] : [{ x, y }] });
  }

  // The middle of an element, scrolled into view.
  middle(selector) {
    return this.run(`(() => {
      const it = document.querySelector(${JSON.stringify(selector)});
      it.scrollIntoView({ block: 'center' });
      const box = it.getBoundingClientRect();
      return [box.left + box.width / 2, box.top + box.height / 2];
    })()`);
  }

  async click(selector) {
    const [x, y] = await this.middle(selector);
    await this.mouse('mousePressed', x, y);
    await this.mouse('mouseReleased', x, y);
  }

  async chooseFile(selector, file) {
    const { root } = await this.send('DOM.getDocument');
    const { nodeId } = await this.send('DOM.querySelector', { nodeId: root.nodeId, selector });
    await this.send('DOM.setFileInputFiles', { nodeId, files: [file] });
  }

  async look({ width = 1280, height = 900, dark = false, still = false } = {}) {
    const mobile = width < 600;
    await this.send('Emulation.setDeviceMetricsOverride', { width, height, deviceScaleFactor: 1, mobile });
    await this.send('Emulation.setEmulatedMedia', { features: [
      { name: 'prefers-color-scheme', value: dark ? 'dark' : 'light' },
      { name: 'prefers-reduced-motion', value: still ? 'reduce' : 'no-preference' }] });
  }

  async picture(file, isWhole = false) {
    const words = { format: 'png', captureBeyondViewport: isWhole };
    fs.writeFileSync(file, Buffer.from((await this.send('Page.captureScreenshot', words)).data, 'base64'));
  }

  // The seconds of a processor that the processes of pages have taken, by Linux.
  seconds() {
    let ticks = 0;
    for (const { words, fields } of processes()) {
      const isOurs = words.includes('--type=renderer') && descends(Number(fields[1]), this.process.pid);
      if (isOurs) ticks += Number(fields[11]) + Number(fields[12]);
    }
    return ticks / TICKS_A_SECOND;
  }

  async close() {
    this.socket.close();
    const ended = new Promise((done) => { this.process.once('exit', done); });
    this.process.kill();
    await ended;
    fs.rmSync(this.home, { recursive: true, force: true, maxRetries: 20, retryDelay: 100 });
  }
}

const wordsOfFault = ({ exception, text }) => exception?.description ?? text;

module.exports = { Browser, sleep };
