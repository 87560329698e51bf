'use strict';
// Drives a headless Chromium through its debugging pipe: messages in JSON on two file descriptors, each with a 0 at its end.
// It needs no library and no port.
const { spawn } = require('child_process');
const fs = require('fs');
const os = require('os');
const path = require('path');

// what Chromium has to know of a key besides its name
const CHARACTERS = { Enter: { windowsVirtualKeyCode: 13, text: '\r' }, Tab: { windowsVirtualKeyCode: 9 } };
const OPTIONS = ['--headless=new', '--no-sandbox', '--disable-gpu', '--hide-scrollbars', '--remote-debugging-pipe'];
// how often, and how many milliseconds apart, it is asked whether a page has been drawn
const LOOKS = 200, BETWEEN_LOOKS = 50;
const pause = milliseconds => new Promise(end => setTimeout(end, milliseconds));

class Browser {
  constructor() {
    this.folder = fs.mkdtempSync(path.join(os.tmpdir(), 'explorer-'));
    const options = [...OPTIONS, '--user-data-dir=' + this.folder, 'about:blank'];
    const stdio = ['ignore', 'ignore', 'ignore', 'pipe', 'pipe'];
    this.child = spawn(process.env.CHROMIUM || 'chromium', options, { stdio });
    this.waiting = new Map();
    // what scripts of pages have thrown
    this.faults = [];
    this.messages = 0;
    let rest = '';
    this.child.stdio[4].on('data', bytes => {
      const texts = (rest + bytes).split('\0');
      rest = texts.pop();
      texts.forEach(text => this.hear(JSON.parse(text)));
    });
  }

  hear({ id, method, params, result, error }) {
    if (method === 'Runtime.exceptionThrown') this.faults.push(params.exceptionDetails.exception.description);
    const wait = this.waiting.get(id);
    if (!wait) return;
    this.waiting.delete(id);
    if (error) wait.fail(new Error(JSON.stringify(error)));
    else wait.end(result);
  }

  send(method, params = {}) {
    const id = ++this.messages;
    this.child.stdio[3].write(JSON.stringify({ id, method, params, sessionId: this.session }) + '\0');
    return new Promise((end, fail) => this.waiting.set(id, { end, fail }));
  }

  async attach() {
    const { targetInfos } = await this.send('Target.getTargets');
    const { targetId } = targetInfos.find(({ type }) => type === 'page');
    const { sessionId } = await this.send('Target.attachToTarget', { targetId, flatten: true });
    this.session = sessionId;
    await this.send('Runtime.enable');
    await this.send('Page.enable');
  }

  // opens an address in a window of this size, and waits until the page has drawn its seats
  async open(url, width = 1500, height = 900, isDark = false) {
    if (!this.session) await this.attach();
    await this.send('Emulation.setDeviceMetricsOverride', { width, height, deviceScaleFactor: 1, mobile: false });
    const colours = { name: 'prefers-color-scheme', value: isDark ? 'dark' : 'light' };
    await this.send('Emulation.setEmulatedMedia', { features: [colours] });
    await this.send('Page.navigate', { url: 'about:blank' });
    await this.send('Page.navigate', { url });
    for (let look = 0; look < LOOKS; look++) {
      if (await this.run(`document.readyState === 'complete' && document.querySelector('#seats section') !== null`)) return;
      await pause(BETWEEN_LOOKS);
    }
    throw new Error('the page was not drawn: ' + this.faults.join('\n'));
  }

  // the value of an expression in the page
  async run(expression) {
    const { result, exceptionDetails } = await this.send('Runtime.evaluate',
      { expression, awaitPromise: true, returnByValue: true });
    if (exceptionDetails) throw new Error(exceptionDetails.exception?.description ?? exceptionDetails.text);
    return result.value;
  }

  // a click of the mouse in the middle of the element that the selector finds, or the second one of a double click
  async click(selector, clickCount = 1) {
    const place = await this.run(`(() => {
      const element = document.querySelector(${JSON.stringify(selector)});
      element?.scrollIntoView({ block: 'nearest' });
      const box = element?.getBoundingClientRect();
      return box && { x: box.x + box.width / 2, y: box.y + box.height / 2 };
    })()`);
    if (!place) throw new Error('nothing to click: ' + selector);
    for (const type of ['mousePressed', 'mouseReleased']) {
      await this.send('Input.dispatchMouseEvent', { type, ...place, button: 'left', clickCount });
    }
  }

  // a key, pressed and released. 8 as modifiers is the shift key
  async key(key, code, modifiers = 0) {
    const down = CHARACTERS[key]?.text ? 'keyDown' : 'rawKeyDown';
    for (const type of [down, 'keyUp']) {
      await this.send('Input.dispatchKeyEvent', { type, key, code, modifiers, ...CHARACTERS[key] });
    }
  }

  async picture(file) {
    const { data } = await this.send('Page.captureScreenshot', { format: 'png' });
    fs.writeFileSync(file, Buffer.from(data, 'base64'));
  }

  async close() {
    const ended = new Promise(end => this.child.on('exit', end));
    await this.send('Browser.close').catch(() => {});
    await Promise.race([ended, pause(10000)]);
    this.child.kill('SIGKILL');
    await this.removeFolder();
  }

  // the browser's helpers may still write into it for a moment, longer on a busy machine
  async removeFolder() {
    for (let i = 0; i < 100; i++) {
      try {
        return fs.rmSync(this.folder, { recursive: true, force: true });
      } catch {
        await pause(100);
      }
    }
  }
}

module.exports = { Browser };
