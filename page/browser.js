'use strict';
// A real browser, without a library: this speaks its debugging protocol over two pipes.
const { spawn } = require('child_process');
const fs = require('fs');
const os = require('os');
const path = require('path');

const LONGEST_RUN = 3600; // seconds of all that is done with a browser, on a busy computer
const LOOK = 50; // milliseconds from one look at something to the next, but for the first ones
const SOON = 5; // looks that come sooner
const CONTROL = 2; // of the keys that are held down with another
// The browser saves energy, as on a battery: it paints thirty pictures a second, and not sixty.
const SAVING = { performance_tuning: { battery_saver_mode: { state: 3 } } };

class Browser {
    constructor(command, page, folder) {
        Object.assign(this, { page: `file://${path.resolve(page)}`, folder, tried: 0, wrong: 0, requested: [], said: [] });
        Object.assign(this, { waiting: new Map(), count: 0, rest: '' });
        this.start(command);
    }

    start(command) {
        this.profile = fs.mkdtempSync(path.join(os.tmpdir(), 'page-'));
        fs.writeFileSync(path.join(this.profile, 'Local State'), JSON.stringify(SAVING));
        const flags = ['headless', 'no-sandbox', 'disable-gpu', 'disable-dev-shm-usage', 'mute-audio', 'lang=en-GB',
            'remote-debugging-pipe', 'window-size=1280,1000', `user-data-dir=${this.profile}`].map((flag) => `--${flag}`);
        const stdio = ['ignore', 'ignore', 'ignore', 'pipe', 'pipe'];
        this.child = spawn(command, [...flags, 'about:blank'], { stdio });
        this.child.on('error', () => this.giveUp('the browser does not start'));
        this.allow('what is done with it', LONGEST_RUN);
        this.child.stdio[4].on('data', (part) => this.hear(part));
    }

    // The time that something may take. After it the tests end, and say what it was.
    allow(what, seconds) {
        clearTimeout(this.limit);
        this.limit = setTimeout(() => this.giveUp(`${what} took more than ${seconds} seconds`), seconds * 1000);
    }

    giveUp(why) {
        console.log(`WRONG: ${why}`);
        this.child.kill();
        process.exit(1);
    }

    hear(part) {
        const texts = (this.rest + part).split('\0');
        this.rest = texts.pop();
        for (const said of texts.map((text) => JSON.parse(text))) {
            if (this.waiting.has(said.id)) {
                this.waiting.get(said.id)(said.result || said);
                this.waiting.delete(said.id);
            } else if (said.method === 'Network.requestWillBeSent') {
                this.requested.push(said.params.request.url.slice(0, 60));
            } else if (said.method === 'Runtime.exceptionThrown' || said.params?.entry?.level === 'error') {
                this.said.push(JSON.stringify(said.params).slice(0, 400));
            }
        }
    }

    send(method, params = {}, session = this.session) {
        return new Promise((done) => {
            this.waiting.set(++this.count, done);
            this.child.stdio[3].write(JSON.stringify({ id: this.count, method, params, sessionId: session }) + '\0');
        });
    }

    async ask(expression) {
        const said = await this.send('Runtime.evaluate', { expression, returnByValue: true, awaitPromise: true });
        const fault = said.exceptionDetails;
        return fault ? `FAULT ${JSON.stringify(fault.exception.description)}` : said.result.value;
    }

    // Does something in the page, with values that are given to it.
    run(does, ...given) {
        return this.ask(`(${does})(${given.map((value) => JSON.stringify(value)).join(', ')})`);
    }

    async expect(what, got, wanted) {
        const is = typeof wanted === 'function' ? wanted(got) : JSON.stringify(got) === JSON.stringify(wanted);
        this.tried++;
        this.wrong += !is;
        if (!is) {
            const not = typeof wanted === 'function' ? '' : `, and not ${JSON.stringify(wanted)}`;
            console.log(`WRONG ${what}: ${JSON.stringify(got)}${not}`);
        }
    }

    // Waits until something holds. A wait in vain is a fault.
    async until(expression, seconds = 90) {
        for (let i = 0; i < (seconds * 1000) / LOOK; i++) {
            if ((await this.ask(expression)) === true) {
                return true;
            }
            await pause(i < SOON ? LOOK / SOON : LOOK);
        }
        await this.expect(`in ${seconds} seconds`, expression, () => false);
        return false;
    }

    text(id) {
        return this.ask(`document.getElementById('${id}').textContent`);
    }

    set(id, value, event = 'change') {
        return this.ask(`(() => { const box = document.getElementById('${id}'); box.value = ${JSON.stringify(value)};
            box.dispatchEvent(new Event('${event}', { bubbles: true })); })()`);
    }

    // Types a text into the box, and waits until typing has rested.
    async type(text) {
        await this.set('text', text, 'input');
        await this.until('editor.timer === undefined');
    }

    async shot(name, params = {}) {
        const { data } = await this.send('Page.captureScreenshot', { format: 'png', ...params });
        const bytes = Buffer.from(data, 'base64');
        fs.writeFileSync(path.join(this.folder, name), bytes);
        return bytes;
    }

    size(width, height, mobile = false) {
        return this.send('Emulation.setDeviceMetricsOverride', { width, height, deviceScaleFactor: 1, mobile });
    }

    // The window as it was at first.
    unsize() {
        return this.send('Emulation.clearDeviceMetricsOverride');
    }

    // Opens a page in a tab of its own as an old or strict browser would.
    async openBare(url, { isScripted, hasWasm }) {
        const { targetId } = await this.send('Target.createTarget', { url: 'about:blank' }, undefined);
        this.session = (await this.send('Target.attachToTarget', { targetId, flatten: true }, undefined)).sessionId;
        await this.send('Page.enable');
        await this.send('Emulation.setScriptExecutionDisabled', { value: !isScripted });
        if (!hasWasm) {
            await this.send('Page.addScriptToEvaluateOnNewDocument', { source: 'delete window.WebAssembly;' });
        }
        await this.send('Page.navigate', { url });
    }

    // Opens the page in a tab of its own, with what follows its #.
    async open(hash, before) {
        const { targetId } = await this.send('Target.createTarget', { url: 'about:blank' }, undefined);
        this.session = (await this.send('Target.attachToTarget', { targetId, flatten: true }, undefined)).sessionId;
        for (const part of ['Page', 'Network', 'Runtime', 'Log']) {
            await this.send(`${part}.enable`);
        }
        if (before) {
            await before();
        }
        await this.send('Page.navigate', { url: `${this.page}${hash}` });
        await this.until('document.body !== null && document.body.dataset.ready !== undefined');
    }

    async close() {
        clearTimeout(this.limit);
        const gone = new Promise((done) => this.child.on('exit', done));
        this.send('Browser.close', {}, undefined);
        await gone;
        fs.rmSync(this.profile, { recursive: true, force: true, maxRetries: 5 });
    }
}

const pause = (ms) => new Promise((done) => setTimeout(done, ms));

module.exports = { Browser, pause, CONTROL };
