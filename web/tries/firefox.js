// A Firefox without a window, spoken to by WebDriver BiDi over its debugging port: no package is needed. Node 20 wants
// --experimental-websocket for it. It does what Browser of browser.js does, as far as web/try asks it of Firefox.
'use strict';
const { spawn } = require('child_process');
const fs = require('fs');
const os = require('os');
const path = require('path');
const { sleep } = require('./browser.js');

// Nothing is asked of the net, and a page of a file may ask for the clipboard.
const SETTINGS = {
  'app.normandy.enabled': false, 'app.update.disabledForTesting': true, 'browser.shell.checkDefaultBrowser': false,
  'datareporting.policy.dataSubmissionEnabled': false, 'network.captive-portal-service.enabled': false,
  'network.connectivity-service.enabled': false, 'toolkit.telemetry.enabled': false,
};

class Firefox {
  async open() {
    this.home = fs.mkdtempSync(path.join(os.tmpdir(), 'mfbank-firefox-'));
    const settings = Object.entries(SETTINGS).map(([name, value]) => `user_pref("${name}", ${value});\n`);
    fs.writeFileSync(path.join(this.home, 'user.js'), settings.join(''));
    const words = ['--headless', '--no-remote', '--profile', this.home, '--remote-debugging-port=0', 'about:blank'];
    this.process = spawn(process.env.FIREFOX || 'firefox', words, { stdio: ['ignore', 'ignore', 'pipe'] });
    await this.connect(`${await this.address()}/session`);
  }

  address() {
    return new Promise((found, failed) => {
      let said = '';
      this.process.stderr.on('data', (data) => {
        said += data;
        const at = /WebDriver BiDi listening on (ws:\/\/\S+)/.exec(said);
        if (at) found(at[1]);
      });
      this.process.on('exit', () => failed(new Error(said)));
    });
  }

  async connect(address) {
    this.socket = new WebSocket(address);
    await new Promise((done, failed) => {
      this.socket.addEventListener('open', done);
      this.socket.addEventListener('error', () => failed(new Error(`no answer at ${address}`)));
    });
    this.sent = 0;
    this.waiting = new Map();
    this.messages = [];
    this.socket.addEventListener('message', (event) => this.receive(JSON.parse(event.data)));
    await this.send('session.new', { capabilities: {} });
    await this.send('session.subscribe', { events: ['log.entryAdded'] });
    const { contexts } = await this.send('browsingContext.getTree', {});
    this.context = contexts[0].context;
  }

  // Keeps whatever the page says in its console, and each fault of its scripts.
  receive({ id, error, message, result, method, params }) {
    if (id) {
      const [done, failed] = this.waiting.get(id);
      this.waiting.delete(id);
      if (error) failed(new Error(`${error}: ${message}`));
      else done(result);
    }
    if (method === 'log.entryAdded') this.messages.push(params.text);
  }

  send(method, params) {
    return new Promise((done, failed) => {
      this.waiting.set(++this.sent, [done, failed]);
      this.socket.send(JSON.stringify({ id: this.sent, method, params }));
    });
  }

  async go(address, isReady) {
    for (const url of ['about:blank', address]) {
      await this.send('browsingContext.navigate', { context: this.context, url, wait: 'complete' });
    }
    await this.until(isReady);
  }

  // What a script gives, which is handed over as JSON.
  async run(code) {
    const given = await this.send('script.evaluate', {
      expression: `(async () => JSON.stringify(await (${code})))()`, target: { context: this.context },
      awaitPromise: true,
    });
    if (given.type === 'exception') throw new Error(given.exceptionDetails.text);
    return given.result.value === undefined ? undefined : JSON.parse(given.result.value);
  }

  async until(code, ms = 20000) {
    for (const end = Date.now() + ms; Date.now() < end; await sleep(30)) if (await this.run(code)) return;
    throw new Error(`it never came: ${code}`);
  }

  async key(key) {
    const value = { Tab: '\uE004', Enter: '\uE007' }[key] ?? key;
    const actions = [{ type: 'key', id: 'keyboard', actions: [{ type: 'keyDown', value }, { type: 'keyUp', value }] }];
    await this.send('input.performActions', { context: this.context, actions });
  }

  async look({ width = 1280, height = 900 } = {}) {
    await this.send('browsingContext.setViewport', { context: this.context, viewport: { width, height } });
  }

  async picture(file) {
    const { data } = await this.send('browsingContext.captureScreenshot', { context: this.context });
    fs.writeFileSync(file, Buffer.from(data, 'base64'));
  }

  async close() {
    const ended = new Promise((done) => { this.process.once('exit', done); });
    await this.send('browser.close', {}).catch(() => this.process.kill());
    await ended;
    this.socket.close();
    fs.rmSync(this.home, { recursive: true, force: true, maxRetries: 20, retryDelay: 100 });
  }
}

module.exports = { Firefox };
