// Browsers without a window, driven as a person does, by clicks and keys: Chromium over its pipe, Firefox by WebDriver BiDi. Nothing is installed beside them.
import { spawn } from 'node:child_process';
import fs from 'node:fs';
import os from 'node:os';
import path from 'node:path';

export const sleep = (ms) => new Promise((done) => setTimeout(done, ms));
const PATIENCE_MS = 60000;

/** Answers by the number of the question. */
class Asker {
  constructor(send) {
    this.send = send;
    this.count = 0;
    this.open = new Map();
    this.hears = () => {};
  }

  hear(told) {
    const waiting = this.open.get(told.id);
    if (!waiting) return this.hears(told);
    this.open.delete(told.id);
    const isBad = told.error !== undefined || told.type === 'error';
    return isBad ? waiting.fail(new Error(JSON.stringify(told))) : waiting.done(told.result);
  }

  ask(method, params = {}, more = {}) {
    this.count += 1;
    const id = this.count;
    return new Promise((done, fail) => {
      this.open.set(id, { done, fail });
      this.send(JSON.stringify({ id, method, params, ...more }));
    });
  }
}

/** What both browsers can do. `errors` has the errors of scripts and the page's console. */
class Browser {
  constructor(name) {
    this.name = name;
    this.errors = [];
    this.home = fs.mkdtempSync(path.join(os.tmpdir(), 'evacplan-page-'));
    this.saved = path.join(this.home, 'saved');
    fs.mkdirSync(this.saved);
  }

  async until(expression, what = expression, patience = PATIENCE_MS) {
    const end = Date.now() + patience;
    while (!(await this.value(expression))) {
      if (Date.now() > end) throw new Error(`${this.name}: waited in vain for ${what}`);
      await sleep(20);
    }
  }

  /** The middle of an element, which is scrolled into view. */
  async middle(selector) {
    const rect = await this.value(`(() => { const it = document.querySelector(${JSON.stringify(selector)}); if (!it) return null; it.scrollIntoView({ block: 'center' }); const r = it.getBoundingClientRect(); return [r.x + r.width / 2, r.y + r.height / 2]; })()`);
    if (!rect) throw new Error(`${this.name}: there is no ${selector}`);
    return rect.map(Math.round);
  }

  text(selector) {
    return this.value(`document.querySelector(${JSON.stringify(selector)})?.innerText ?? ''`);
  }

  async type(text) {
    for (const key of text) await this.press(key);
  }

  /** Waits for a file that the page saved, and gives its text. */
  async savedFile(name) {
    const file = path.join(this.saved, name), end = Date.now() + PATIENCE_MS;
    while (!fs.existsSync(file) || fs.existsSync(`${file}.part`) || fs.statSync(file).size === 0) {
      if (Date.now() > end) throw new Error(`${this.name}: ${name} wasn't saved; there is ${fs.readdirSync(this.saved)}`);
      await sleep(50);
    }
    return fs.readFileSync(file, 'utf8');
  }

  async close() {
    this.process.kill();
    await sleep(300);
    fs.rmSync(this.home, { recursive: true, force: true, maxRetries: 5 });
  }
}

const KEYS = { Enter: ['Enter', 13, '\r'], Tab: ['Tab', 9, ''], Escape: ['Escape', 27, ''], ArrowDown: ['ArrowDown', 40, ''], ArrowRight: ['ArrowRight', 39, ''], ' ': ['Space', 32, ' '] };

class Chromium extends Browser {
  static async start() {
    const browser = new Chromium('Chromium');
    const words = ['--headless=new', '--no-sandbox', '--disable-gpu', '--no-first-run', '--remote-debugging-pipe', `--user-data-dir=${browser.home}/profile`, 'about:blank'];
    browser.process = spawn('chromium', words, { stdio: ['ignore', 'ignore', 'ignore', 'pipe', 'pipe'] });
    const [, , , into, from] = browser.process.stdio;
    browser.asker = new Asker((text) => into.write(`${text}\0`));
    let rest = '';
    from.setEncoding('utf8');
    from.on('data', (part) => {
      const all = (rest + part).split('\0');
      rest = all.pop();
      all.forEach((it) => browser.asker.hear(JSON.parse(it)));
    });
    browser.asker.hears = (told) => browser.note(told);
    const { targetInfos } = await browser.asker.ask('Target.getTargets');
    const { targetId } = targetInfos.find((it) => it.type === 'page');
    browser.session = (await browser.asker.ask('Target.attachToTarget', { targetId, flatten: true })).sessionId;
    for (const part of ['Page', 'Runtime', 'Log', 'DOM']) await browser.ask(`${part}.enable`);
    browser.version = (await browser.ask('Browser.getVersion')).product;
    await browser.asker.ask('Browser.setDownloadBehavior', { behavior: 'allow', downloadPath: browser.saved });
    return browser;
  }

  note({ method, params }) {
    if (method === 'Runtime.exceptionThrown') this.errors.push(params.exceptionDetails.exception?.description ?? params.exceptionDetails.text);
    if (method === 'Log.entryAdded' && params.entry.level === 'error') this.errors.push(params.entry.text);
  }

  ask(method, params = {}) {
    return this.asker.ask(method, params, { sessionId: this.session });
  }

  async go(url) {
    await this.ask('Page.navigate', { url });
    await this.until("document.readyState === 'complete' && document.body.classList.contains('ready')", 'the page');
  }

  async value(expression) {
    const got = await this.ask('Runtime.evaluate', { expression, returnByValue: true, awaitPromise: true });
    if (got.exceptionDetails) throw new Error(got.exceptionDetails.exception?.description ?? got.exceptionDetails.text);
    return got.result.value;
  }

  size(width, height, isPhone = false) {
    return this.ask('Emulation.setDeviceMetricsOverride', { width, height, deviceScaleFactor: isPhone ? 2 : 1, mobile: isPhone });
  }

  async click(selector) {
    const [x, y] = await this.middle(selector);
    for (const type of ['mousePressed', 'mouseReleased']) await this.ask('Input.dispatchMouseEvent', { type, x, y, button: 'left', clickCount: 1 });
  }

  async press(key, modifiers = 0) {
    const [code, number, text] = KEYS[key] ?? ['', 0, key];
    await this.ask('Input.dispatchKeyEvent', { type: 'keyDown', key, code, windowsVirtualKeyCode: number, text: modifiers ? '' : text, modifiers });
    await this.ask('Input.dispatchKeyEvent', { type: 'keyUp', key, code, windowsVirtualKeyCode: number, modifiers });
  }

  async openFile(selector, file) {
    const { root } = await this.ask('DOM.getDocument');
    const { nodeId } = await this.ask('DOM.querySelector', { nodeId: root.nodeId, selector });
    await this.ask('DOM.setFileInputFiles', { nodeId, files: [file] });
  }

  async shot(file, isWhole = false) {
    const { data } = await this.ask('Page.captureScreenshot', { format: 'png', captureBeyondViewport: isWhole });
    fs.writeFileSync(file, Buffer.from(data, 'base64'));
  }

  async pdf(file) {
    const { data } = await this.ask('Page.printToPDF', { preferCSSPageSize: true });
    fs.writeFileSync(file, Buffer.from(data, 'base64'));
  }
}

const FIREFOX_KEYS = { Enter: '\ue007', Tab: '\ue004', Escape: '\ue00c', ArrowDown: '\ue015', ArrowRight: '\ue014' };

class Firefox extends Browser {
  static async start() {
    const browser = new Firefox('Firefox');
    const profile = path.join(browser.home, 'profile');
    fs.mkdirSync(profile);
    const settings = { 'browser.download.folderList': 2, 'browser.download.dir': browser.saved, 'browser.download.useDownloadDir': true, 'browser.download.alwaysOpenPanel': false, 'browser.shell.checkDefaultBrowser': false };
    fs.writeFileSync(path.join(profile, 'user.js'), Object.entries(settings).map(([name, value]) => `user_pref(${JSON.stringify(name)}, ${JSON.stringify(value)});\n`).join(''));
    browser.process = spawn('firefox-esr', ['--headless', '--no-remote', '--profile', profile, '--remote-debugging-port', '0', 'about:blank'], { stdio: ['ignore', 'ignore', 'pipe'] });
    const address = await new Promise((done) => {
      browser.process.stderr.on('data', (part) => {
        const found = /WebDriver BiDi listening on (ws:\S+)/.exec(String(part));
        if (found) done(found[1]);
      });
    });
    const socket = new WebSocket(`${address}/session`);
    await new Promise((done) => { socket.onopen = done; });
    browser.asker = new Asker((text) => socket.send(text));
    socket.onmessage = ({ data }) => browser.asker.hear(JSON.parse(data));
    browser.asker.hears = ({ method, params }) => method === 'log.entryAdded' && params.level === 'error' && browser.errors.push(params.text);
    const { capabilities } = await browser.ask('session.new', { capabilities: {} });
    browser.version = `${capabilities.browserName} ${capabilities.browserVersion}`;
    browser.context = (await browser.ask('browsingContext.getTree')).contexts[0].context;
    await browser.ask('session.subscribe', { events: ['log.entryAdded'] });
    return browser;
  }

  ask(method, params = {}) {
    return this.asker.ask(method, params);
  }

  async go(url) {
    await this.ask('browsingContext.navigate', { context: this.context, url, wait: 'complete' });
    await this.until("document.body.classList.contains('ready')", 'the page');
  }

  async value(expression) {
    const told = await this.ask('script.evaluate', { expression: `Promise.resolve(${expression}).then((it) => JSON.stringify(it) ?? 'null')`, target: { context: this.context }, awaitPromise: true });
    if (told.exceptionDetails) throw new Error(told.exceptionDetails.text);
    return JSON.parse(told.result.value);
  }

  size(width, height) {
    return this.ask('browsingContext.setViewport', { context: this.context, viewport: { width, height } });
  }

  act(actions) {
    return this.ask('input.performActions', { context: this.context, actions });
  }

  async click(selector) {
    const [x, y] = await this.middle(selector);
    await this.act([{ type: 'pointer', id: 'mouse', actions: [{ type: 'pointerMove', x, y }, { type: 'pointerDown', button: 0 }, { type: 'pointerUp', button: 0 }] }]);
  }

  press(key) {
    const value = FIREFOX_KEYS[key] ?? key;
    return this.act([{ type: 'key', id: 'keys', actions: [{ type: 'keyDown', value }, { type: 'keyUp', value }] }]);
  }

  async openFile(selector, file) {
    const { nodes } = await this.ask('browsingContext.locateNodes', { context: this.context, locator: { type: 'css', value: selector } });
    await this.ask('input.setFiles', { context: this.context, element: { sharedId: nodes[0].sharedId }, files: [file] });
  }

  async shot(file) {
    const { data } = await this.ask('browsingContext.captureScreenshot', { context: this.context });
    fs.writeFileSync(file, Buffer.from(data, 'base64'));
  }

  async pdf(file) {
    const { data } = await this.ask('browsingContext.print', { context: this.context });
    fs.writeFileSync(file, Buffer.from(data, 'base64'));
  }
}

/** The browsers that are here, each as how it is started. */
export function browsersHere() {
  const isHere = (name) => (process.env.PATH ?? '').split(':').some((folder) => fs.existsSync(path.join(folder, name)));
  return [['chromium', Chromium], ['firefox-esr', Firefox]].map(([name, kind]) => ({ name, isHere: isHere(name), start: () => kind.start() }));
}
