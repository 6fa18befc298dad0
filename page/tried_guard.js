'use strict';
// What a museum's screen prevents, that it begins again after a fault, and that a day of it leaves nothing behind.
const { pause } = require('./browser.js');
const { expectWithin } = require('./busy.js');
const { openKiosk } = require('./tried_kiosk.js');

const MEANT = 'thrown by the test';
const AGAIN = 10000; // milliseconds from a fault to the page that begins again

// Two fingers that move apart.
async function pinch(b) {
    const fingers = (apart) => [640 - apart, 640 + apart].map((x, id) => ({ x, y: 360, id }));
    await b.send('Input.dispatchTouchEvent', { type: 'touchStart', touchPoints: fingers(50) });
    for (let apart = 60; apart <= 300; apart += 20) {
        await b.send('Input.dispatchTouchEvent', { type: 'touchMove', touchPoints: fingers(apart) });
        await pause(16);
    }
    await b.send('Input.dispatchTouchEvent', { type: 'touchEnd', touchPoints: [] });
    await pause(300);
}

// What a hand does to a screen, and what becomes of it: first on the page as a visitor has it at home, so that each of
// these is seen to do something there.
async function guarded(b) {
    for (const [hash, isKiosk] of [['', false], ['#kiosk=60,quiet', true]]) {
        await openKiosk(b, hash);
        const where = isKiosk ? 'in a kiosk' : 'at home';
        await b.run(() => {
            Object.assign(window, { stopped: [], stain: 1 });
            ['contextmenu', 'keydown', 'drop', 'wheel'].forEach((kind) => window.addEventListener(kind, (event) => {
                window.stopped.push(`${kind} ${event.defaultPrevented}`);
            }));
        });
        const mouse = (type, x, y, button = 'left') => b.send('Input.dispatchMouseEvent', { type, x, y, button, buttons: 1, clickCount: 1 });
        await mouse('mousePressed', 300, 20);
        await mouse('mouseMoved', 500, 20);
        await mouse('mouseReleased', 700, 20);
        await b.expect(`a selection ${where}`, await b.ask('getSelection().toString() !== ""'), !isKiosk);
        await mouse('mousePressed', 300, 300, 'right');
        await mouse('mouseReleased', 300, 300, 'right');
        for (const [key, code, modifiers] of [['p', 80, 2], ['s', 83, 2], ['+', 187, 2], ['F5', 116, 0], ['ArrowLeft', 37, 1]]) {
            await b.send('Input.dispatchKeyEvent', { type: 'rawKeyDown', key, windowsVirtualKeyCode: code, modifiers });
            await b.send('Input.dispatchKeyEvent', { type: 'keyUp', key, windowsVirtualKeyCode: code, modifiers });
        }
        await b.send('Input.dispatchMouseEvent', { type: 'mouseWheel', x: 640, y: 360, deltaX: 0, deltaY: 100, modifiers: 2 });
        await pause(300);
        await b.expect(`a menu, five keys and a wheel with Control ${where}`, await b.ask('window.stopped.sort()'),
            ['contextmenu', 'keydown', 'keydown', 'keydown', 'keydown', 'keydown', 'wheel'].map((kind) => `${kind} ${isKiosk}`));
        await b.send('Input.dispatchKeyEvent', { type: 'rawKeyDown', key: 'Tab', windowsVirtualKeyCode: 9 });
        await b.expect(`Tab ${where}`, await b.ask('window.stopped.pop()'), 'keydown false');
        await b.ask('by("text").focus(); 0');
        await b.send('Input.dispatchKeyEvent', { type: 'rawKeyDown', key: 'v', windowsVirtualKeyCode: 86, modifiers: 2 });
        await b.expect(`Control and V in a box ${where}`, await b.ask('window.stopped.pop()'), 'keydown false');
        await b.ask('document.activeElement.blur(); scrollTo(0, 0); 0');
        await pinch(b);
        await b.expect(`a pinch ${where}`, await b.ask('visualViewport.scale > 1.1'), !isKiosk);
    }
    const file = { items: [], files: [require.resolve('./page.css')], dragOperationsMask: 1 };
    for (const type of ['dragEnter', 'dragOver', 'drop']) {
        await b.send('Input.dispatchDragEvent', { type, x: 640, y: 360, data: file });
    }
    await pause(500);
    await b.expect('a file that is dropped', await b.ask('[window.stain, window.stopped.pop()]'), [1, 'drop true']);
    await b.ask('history.back(); 0');
    await pause(500);
    await b.expect('the history leads nowhere', await b.ask('[window.stain, location.hash]'), [1, '#kiosk=60,quiet']);
    await b.unsize();
}

// After an exception, a promise that failed, a lost canvas or a machine that has a fault the page begins again.
async function watchdog(b) {
    const faults = {
        'an exception': `setTimeout(() => { throw new Error('${MEANT}'); })`,
        'a promise that failed': `Promise.reject(new Error('${MEANT}'))`,
        'a lost canvas': `by('store').dispatchEvent(new Event('contextlost'))`,
        'a page that does not load': `tellFault(new TypeError('${MEANT}'))`,
        'a story that is stuck': 'page.watchdog.look(); page.watchdog.seen.since -= 60001; page.watchdog.look()',
        'a machine with a fault': `halt(); page.machine.goOn = () => { throw new Error('${MEANT}'); }; look(3)`,
    };
    await openKiosk(b, '#kiosk=60,quiet&lang=de');
    for (const [what, fault] of Object.entries(faults)) {
        await b.ask('window.stain = 1; 0');
        const since = Date.now();
        await b.ask(`${fault}; 0`);
        const again = 'window.stain === undefined && page.tour !== undefined && page.kiosk !== undefined';
        await b.expect(`${what}: it begins again`, await b.until(again, 15), true);
        await expectWithin(b, `${what}: within ten seconds`, Date.now() - since, AGAIN);
    }
    await b.expect('in its language', await b.ask('document.documentElement.lang'), 'de');
    const ignored = await b.run(() => {
        window.dispatchEvent(new ErrorEvent('error', { message: 'ResizeObserver loop completed with undelivered notifications.' }));
        return page.watchdog.due === undefined;
    });
    await b.expect('but not for what is no fault', ignored, true);
    b.said = b.said.filter((said) => !said.includes(MEANT));
    await b.unsize();
}

const DAY = 86400; // seconds
const ROUNDS = 2; // of all stories, before memory is measured

// 24 hours of a kiosk, by a clock that is moved, with half an hour between its stories: neither its memory nor its
// nodes grow.
async function day(b) {
    await openKiosk(b, '#kiosk=60,quiet,pause=1800');
    await b.ask('page.hurry = 0.00001; window.planned = 0; 0');
    const round = `(async () => {
        for (let k = 0; k < ROTATION.length; k++) {
            while (page.tour) {
                page.tour.skip();
                await new Promise((done) => setTimeout(done));
            }
            window.planned += 79 + 1801; // no story is shorter than the first one
            page.shift += 1801000;
            page.kiosk.look();
        }
        return window.planned;
    })()`;
    const measured = async () => { // at rest, once the browser has cleared away what is not needed any more
        await b.ask('halt(); page.kiosk.reset(); 0');
        for (let k = 0; k < 3; k++) {
            await pause(700);
            await b.send('HeapProfiler.collectGarbage');
        }
        const { usedSize } = await b.send('Runtime.getHeapUsage');
        const { nodes, jsEventListeners } = await b.send('Memory.getDOMCounters');
        return { memory: usedSize, nodes, listeners: jsEventListeners, wasm: await b.ask('page.machine.exports.memory.buffer.byteLength') };
    };
    for (let k = 0; k < ROUNDS; k++) {
        await b.ask(round);
    }
    const first = await measured();
    let seconds = await b.ask('page.kiosk.tell(0); window.planned = 0');
    while (seconds < DAY) {
        seconds = await b.ask(round);
    }
    const last = await measured();
    console.log(`  a kiosk after 24 hours: ${JSON.stringify(first)} at first, ${JSON.stringify(last)} then`);
    await b.expect('no more nodes and listeners', [last.nodes, last.listeners], [first.nodes, first.listeners]);
    await b.expect('no more memory', [last.memory - first.memory < 300000, last.wasm === first.wasm], [true, true]);
    await b.unsize();
}

module.exports = { guarded, watchdog, day };
