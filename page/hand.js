'use strict';
// How a person writes on the page: with a click into a box, keys that are pressed, and lists that are opened with keys. Every
// event is the browser's own.
const { bringIntoSight } = require('./middle.js');

const CONTROL = 2; // the modifier of a key that is pressed with Control
const SCREENS = [[1366, 768, false], [360, 740, true]];

// A key by its name, with its code, pressed once.
async function key(b, name, code, more = {}) {
    for (const type of ['rawKeyDown', 'keyUp']) {
        await b.send('Input.dispatchKeyEvent', { type, key: name, code: name, windowsVirtualKeyCode: code, ...more });
    }
}

// Presses a part of the page where nothing is over it: a telephone's buttons are over its lower edge.
async function press(b, selector, kind) {
    await b.run(bringIntoSight, selector);
    await b.press(selector, kind);
}

// Writes a text into a box instead of what is there, and waits until typing has rested.
async function write(b, selector, text) {
    await press(b, selector);
    await key(b, 'a', 65, { modifiers: CONTROL, commands: ['selectAll'] });
    await (text === '' ? key(b, 'Delete', 46) : b.send('Input.insertText', { text }));
    await b.until('editor.timer === undefined');
}

// Writes more at the end of the box. It doesn't wait until typing has rested.
async function writeOn(b, text) {
    await press(b, '#text');
    await key(b, 'End', 35, { modifiers: CONTROL, commands: ['moveToEndOfDocument'] });
    await b.send('Input.insertText', { text });
}

// Does something on each screen and in each language.
async function everywhere(b, does) {
    for (const [wide, high, isTouch] of SCREENS) {
        await b.size(wide, high, isTouch);
        for (const language of ['en', 'de']) {
            await b.speak(language);
            await does(language, `${wide} x ${high}, ${language}`, isTouch ? 'touch' : 'mouse');
        }
        await b.speak('en');
    }
    await b.unsize();
}

// Notes when the page has done what a changed address asks for; after some time too, where nothing has changed.
function hearAddress() {
    const LONGEST = 1000; // milliseconds
    const does = window.onhashchange, hasArrived = () => { window.isArrived = true; };
    window.isArrived = false;
    window.onhashchange = async (event) => {
        window.onhashchange = does;
        await (does && does(event));
        hasArrived();
    };
    setTimeout(() => window.onhashchange !== does && hasArrived(), LONGEST);
}

const ARRIVED = 'document.body !== null && document.body.dataset.ready !== undefined && window.isArrived !== false';

// Changes what stands after the # of the address, as by hand.
async function goTo(b, hash) {
    await b.run(hearAddress);
    await b.send('Page.navigate', { url: `${b.page}${hash}`, transitionType: 'typed' });
    await b.until(ARRIVED);
}

// The browser's Back, or with 1 its Forward.
async function go(b, steps = -1) {
    const { currentIndex, entries } = await b.send('Page.getNavigationHistory');
    await b.run(hearAddress);
    await b.send('Page.navigateToHistoryEntry', { entryId: entries[currentIndex + steps].id });
    await b.until(ARRIVED);
}

async function reload(b) {
    await b.ask('document.body.dataset.old = 1; 0');
    await b.send('Page.reload');
    await b.until('document.body !== null && document.body.dataset.old === undefined && document.body.dataset.ready !== undefined');
}

module.exports = { goTo, go, reload, press, key, write, writeOn, everywhere };
