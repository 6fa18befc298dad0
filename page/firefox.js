'use strict';
// Tries the page in Firefox, with no library: it is spoken to by WebDriver BiDi over a socket.
//   node page/firefox.js BROWSER PAGE.html FOLDER [PART]      PART as for page/browse.js
const crypto = require('crypto');
const { spawn } = require('child_process');
const fs = require('fs');
const net = require('net');
const os = require('os');
const path = require('path');
const { Visitor } = require('./visitor.js');
const { IN_FIREFOX, partsFor, tryParts } = require('./tried.js');

// A web socket, as far as it is needed: texts there and back.
class Socket {
    constructor(port, address, hear) {
        Object.assign(this, { rest: Buffer.alloc(0), isOpen: false, parts: [], hear });
        this.socket = net.connect(port, '127.0.0.1');
        this.socket.on('data', (bytes) => this.take(bytes));
        const key = crypto.randomBytes(16).toString('base64');
        this.socket.write(`GET ${address} HTTP/1.1\r\nHost: 127.0.0.1:${port}\r\nUpgrade: websocket\r\nConnection: Upgrade\r\n`
            + `Sec-WebSocket-Key: ${key}\r\nSec-WebSocket-Version: 13\r\n\r\n`);
        this.opened = new Promise((done) => { this.open = done; });
    }

    take(bytes) {
        this.rest = Buffer.concat([this.rest, bytes]);
        if (!this.isOpen) {
            const end = this.rest.indexOf('\r\n\r\n');
            if (end < 0) {
                return;
            }
            this.rest = this.rest.subarray(end + 4);
            this.isOpen = true;
            this.open();
        }
        while (this.takeFrame());
    }

    // Takes a frame off what came; false where it is not whole.
    takeFrame() {
        if (this.rest.length < 2) {
            return false;
        }
        const short = this.rest[1] & 127, head = short < 126 ? 2 : short === 126 ? 4 : 10;
        if (this.rest.length < head) {
            return false;
        }
        const length = short < 126 ? short : short === 126 ? this.rest.readUInt16BE(2) : Number(this.rest.readBigUInt64BE(2));
        if (this.rest.length < head + length) {
            return false;
        }
        const [isLast, kind, body] = [this.rest[0] >> 7, this.rest[0] & 15, this.rest.subarray(head, head + length)];
        this.rest = this.rest.subarray(head + length);
        if (kind < 3) { // a text, or more of one
            this.parts.push(body);
            if (isLast) {
                this.hear(JSON.parse(Buffer.concat(this.parts).toString('utf8')));
                this.parts = [];
            }
        }
        return true;
    }

    say(message) {
        const body = Buffer.from(JSON.stringify(message)), mask = crypto.randomBytes(4);
        const head = Buffer.alloc(body.length < 126 ? 2 : body.length < 65536 ? 4 : 10);
        head[0] = 0x81;
        head[1] = 0x80 | (head.length === 2 ? body.length : head.length === 4 ? 126 : 127);
        if (head.length === 4) {
            head.writeUInt16BE(body.length, 2);
        } else if (head.length === 10) {
            head.writeBigUInt64BE(BigInt(body.length), 2);
        }
        this.socket.write(Buffer.concat([head, mask, body.map((byte, k) => byte ^ mask[k & 3])]));
    }
}

// A value that the browser tells.
function valueOf({ type, value }) {
    if (type === 'array') {
        return value.map(valueOf);
    }
    if (type === 'object') {
        return Object.fromEntries(value.map(([key, one]) => [key, valueOf(one)]));
    }
    return type === 'null' ? null : value;
}

const KEY_VALUES = {
    Shift: '\uE008', Enter: '\uE007', Tab: '\uE004', Control: '\uE009',
    ArrowRight: '\uE014', ArrowLeft: '\uE012', ArrowUp: '\uE013', ArrowDown: '\uE015',
};

class Firefox extends Visitor {
    start(command) {
        this.profile = fs.mkdtempSync(path.join(os.tmpdir(), 'page-'));
        fs.writeFileSync(path.join(this.profile, 'user.js'), 'user_pref("intl.locale.requested", "en-GB");\n'
            + 'user_pref("intl.accept_languages", "en-GB");\nuser_pref("remote.active-protocols", 1);\n'
            + 'user_pref("layout.frame_rate", 30);\n'); // pictures a second, as in Chromium
        const flags = ['--headless', '--no-remote', '--profile', this.profile, '--remote-debugging-port', '0', 'about:blank'];
        this.child = spawn(command, flags, { stdio: ['ignore', 'ignore', 'pipe'], env: { ...process.env, HOME: this.profile } });
        this.child.on('error', () => this.giveUp('the browser does not start'));
        this.allow('the browser', BEGINNING);
        this.port = new Promise((done) => {
            let said = '';
            this.child.stderr.on('data', (part) => {
                said += part;
                const found = said.match(/BiDi listening on ws:\/\/[^:]+:(\d+)/);
                if (found) {
                    done(Number(found[1]));
                }
            });
        });
    }

    async begin() {
        this.socket = new Socket(await this.port, '/session', (said) => {
            if (this.waiting.has(said.id)) {
                this.waiting.get(said.id)(said.result || said);
                this.waiting.delete(said.id);
            } else if (said.method === 'log.entryAdded' && said.params.level === 'error') {
                this.said.push(said.params.text);
            }
        });
        await this.socket.opened;
        await this.tell('session.new', { capabilities: {} });
        await this.tell('session.subscribe', { events: ['log.entryAdded'] });
    }

    tell(method, params) {
        return new Promise((done) => {
            this.waiting.set(++this.count, done);
            this.socket.say({ id: this.count, method, params });
        });
    }

    async ask(expression) {
        const said = await this.tell('script.evaluate', { expression, target: { context: this.context }, awaitPromise: true });
        return said.result ? valueOf(said.result) : `FAULT ${JSON.stringify(said.exceptionDetails ? said.exceptionDetails.text : said)}`;
    }

    // A press at a point of the window, with the mouse or with a finger.
    point(x, y, kind) {
        const at = { type: 'pointerMove', x: Math.floor(x), y: Math.floor(y) };
        const press = ['pointerDown', 'pointerUp'].map((type) => ({ type, button: 0 }));
        const actions = [{ type: 'pointer', id: kind, parameters: { pointerType: kind }, actions: [at, ...press] }];
        return this.tell('input.performActions', { context: this.context, actions });
    }

    key(name) {
        const value = KEY_VALUES[name] || name;
        const actions = ['keyDown', 'keyUp'].map((type) => ({ type, value }));
        return this.tell('input.performActions', { context: this.context, actions: [{ type: 'key', id: 'keys', actions }] });
    }

    // Writes a text into a box, instead of what is there: a line key by key, more as if it was pasted.
    async write(selector, text) {
        await this.press(selector);
        const stroke = (value) => ['keyDown', 'keyUp'].map((type) => ({ type, value }));
        const [down, up] = stroke(KEY_VALUES.Control), isLine = !text.includes('\n');
        const actions = [down, ...stroke('a'), up, ...(isLine ? [...text].flatMap(stroke) : [])];
        await this.tell('input.performActions', { context: this.context, actions: [{ type: 'key', id: 'keys', actions }] });
        if (!isLine) {
            await this.run((all) => document.execCommand('insertText', false, all), text);
        }
    }

    size(width, height) {
        return this.tell('browsingContext.setViewport', { context: this.context, viewport: { width, height } });
    }

    unsize() {
        return this.size(...WINDOW);
    }

    async shot(name) {
        const { data } = await this.tell('browsingContext.captureScreenshot', { context: this.context });
        fs.writeFileSync(path.join(this.folder, name), Buffer.from(data, 'base64'));
    }

    // Opens the page in a tab of its own, with what follows its #.
    async open(hash) {
        ({ context: this.context } = await this.tell('browsingContext.create', { type: 'tab' }));
        await this.unsize();
        await this.tell('browsingContext.navigate', { context: this.context, url: `${this.page}${hash}`, wait: 'complete' });
        await this.until('document.body !== null && document.body.dataset.ready !== undefined');
    }

    async close() {
        clearTimeout(this.limit);
        const gone = new Promise((done) => this.child.on('exit', done));
        this.tell('browser.close', {});
        await gone;
        fs.rmSync(this.profile, { recursive: true, force: true, maxRetries: 5 });
    }
}

const WINDOW = [1280, 1000]; // pixels
const BEGINNING = 120; // seconds until the browser is there, on a busy computer

(async () => {
    const [command, file, folder, asked] = process.argv.slice(2);
    const parts = partsFor(IN_FIREFOX, asked);
    const b = new Firefox(command, file, folder);
    await b.begin();
    await b.open('');
    await tryParts(b, parts);
    await b.expect('nothing is thrown', b.said.filter((said) => !said.includes('Content-Security-Policy')), []);
    await b.shot('firefox.png');
    const version = await b.ask('navigator.userAgent.match(/Firefox.[0-9.]+/)[0]');
    const memories = await b.ask('document.body.dataset.ready');
    console.log(`the page in ${version}, with ${memories} memories: ${parts.length} parts, ${b.tried} tries, ${b.wrong} faults`);
    await b.close();
    process.exit(b.wrong ? 1 : 0);
})();
