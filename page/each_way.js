'use strict';
// How a control is pressed in each of the ways, by events of the browser alone; and how a page is made new for each press.
const { CONTROL } = require('./browser.js');
const { key } = require('./hand.js');
const { middleOf, bringIntoSight } = require('./middle.js');

const PRESSED = '[data-pressed]'; // the control that is at hand
const SHIFT = 8; // the modifier of a key that is pressed with Shift
const ARROWS = 3; // of a group of radio buttons, at most

// Notes in the page what leaves it, which is the names of files and what is printed, and which buttons of the machine are pressed.
function note() {
    const leaving = [], pressing = [];
    HTMLAnchorElement.prototype.click = function click() { leaving.push(this.download); };
    by('file').addEventListener('click', (event) => {
        event.preventDefault();
        leaving.push('file');
    });
    window.print = () => { leaving.push(document.body.dataset.print); afterPrint(); };
    document.addEventListener('click', ({ target }) => target.closest('.buttons') && pressing.push(target.id), true);
    window.left = () => leaving;
    window.pressed = () => pressing.splice(0);
    window.forgetNoted = () => { leaving.length = pressing.length = 0; };
}

// What a visitor sees of the page, and states of it that several controls need.
function see() {
    Object.assign(window, {
        isSeen: (id) => by(id).checkVisibility(),
        seen: (id) => (isSeen(id) ? by(id).textContent.trim() : ''),
        value: (id) => by(id).value,
        checked: (id) => by(id).checked,
        focused: () => { const { id, tagName } = document.activeElement; return id || tagName.replace('BODY', ''); },
        next: () => by('place').textContent.match(/\d[\d,]*\d|\d|$/)[0],
        selected: () => by('text').value.slice(by('text').selectionStart, by('text').selectionEnd),
        lamps: () => [...document.querySelectorAll('#wordLamps i')].map(({ className }) => (className === 'on' ? '1' : '0')).join(''),
        cells: (place) => [...lens.rowOf(place).cells].map((cell) => cell.textContent),
        tables: () => [...document.querySelectorAll('#lessonText details')].map(({ open }) => open),
        headed: (place) => [...document.querySelectorAll('#lens tbody th')].some((head) => new RegExp(`^${place}`).test(head.textContent)),
        chosen: () => by('examples').selectedOptions[0].text.match(/\((.*)\)/)[1],
        caret: (text) => { const at = by('text').value.indexOf(text); by('text').setSelectionRange(at, at); },
        choose: (chosen, id = 'stories') => { by(id).value = chosen; by(id).dispatchEvent(new Event('change')); },
        invite: () => { look(193); by('invite').hidden = false; },
    });
}

// Makes it possible that the page is made new by its own means, in the exhibit or in the workbench.
function makeRenewable() {
    const boxes = [...document.querySelectorAll('main input:not([type=file]), main select, main textarea')]
        .map((box) => ({ box, value: box.value, checked: box.checked }));
    forget();
    window.renew = (inBench) => {
        halt();
        forgetNoted();
        kept.former = [];
        showFormer(false);
        clearTimeout(editor.timer);
        Object.assign(editor, { isOwn: false, waiting: undefined, timer: undefined });
        keyboard.isOfLetters = false;
        (inBench ? openBench : closeBench)();
        boxes.forEach(({ box, value, checked }) => Object.assign(box, { value, checked }));
        document.querySelectorAll('details').forEach((box) => { box.open = false; });
        ['ask', 'linked', 'invite', 'nameLabel', 'teacher'].forEach((id) => { by(id).hidden = true; });
        tellNews();
        follow(true);
        drawPace();
        drawLesson();
        loadStory();
        if (page.words.name !== 'en') {
            speakIn('en');
        }
        by('text').setSelectionRange(0, 0);
        document.activeElement.blur();
        scrollTo(0, 0);
    };
}

async function install(b) {
    for (const part of [note, see, makeRenewable]) {
        await b.run(part);
    }
}

// Marks one of the controls with a selector as the one at hand: what kind it is; nothing if there is none.
function mark(selector, number) {
    document.querySelectorAll('[data-pressed]').forEach((node) => node.removeAttribute('data-pressed'));
    const node = document.querySelectorAll(selector)[number];
    if (!node) {
        return undefined;
    }
    node.dataset.pressed = '';
    const isBox = node.tagName === 'TEXTAREA' || ['text', 'number'].includes(node.type);
    return { SELECT: 'list', BUTTON: 'button', SUMMARY: 'button', INPUT: isBox ? 'box' : node.type, TEXTAREA: 'box' }[node.tagName] || 'part';
}

// Takes up one of the controls with a selector, and scrolls to it: what kind it is.
async function takeUp(b, selector, number) {
    const kind = await b.run(mark, selector, number);
    await b.run(bringIntoSight, PRESSED);
    return kind;
}

// Where a control is pressed: in its middle, or in another point of it, or on a text that is seen there.
async function pointOf(b, { at, over }) {
    const middle = await b.run(middleOf, PRESSED);
    if (!middle || middle.over || !(at || over)) {
        return middle && !middle.over ? middle : undefined;
    }
    return b.run((selector, shares, sought) => {
        let box = document.querySelector(selector).getBoundingClientRect();
        if (sought) {
            const walker = document.createTreeWalker(by(sought[0]), NodeFilter.SHOW_TEXT), range = document.createRange();
            while (walker.nextNode() && !walker.currentNode.data.includes(sought[1])) { /* further */ }
            const from = walker.currentNode.data.indexOf(sought[1]);
            range.setStart(walker.currentNode, from);
            range.setEnd(walker.currentNode, from + sought[1].length);
            box = range.getBoundingClientRect();
        }
        const [across, down] = shares || [0.5, 0.5];
        return { x: box.left + across * box.width, y: box.top + down * box.height };
    }, PRESSED, at || null, over || null);
}

// Goes to a control by Tab, from the one before it; of a group of radio buttons to the one that is chosen. Whether it was reached.
async function tabTo(b) {
    await b.run((selector) => {
        const node = document.querySelector(selector);
        const stop = node.type === 'radio' ? document.querySelector(`[name=${node.name}]:checked`) : node;
        stop.focus({ preventScroll: true });
        document.body.dataset.stop = stop.id;
    }, PRESSED);
    await key(b, 'Tab', 9, { modifiers: SHIFT });
    await key(b, 'Tab', 9);
    return b.run((selector) => {
        const { activeElement: now, body } = document;
        return now === document.querySelector(selector) || (now.type === 'radio' && now.id === body.dataset.stop);
    }, PRESSED);
}

// Types a text into a box, instead of what is in a box of one line.
async function type(b, { typed, ends }) {
    const length = await b.run((selector) => {
        const { tagName, value } = document.querySelector(selector);
        return tagName === 'TEXTAREA' ? undefined : value.length;
    }, PRESSED);
    if (length !== undefined) {
        await b.key('End');
    }
    for (let k = 0; k < length; k++) {
        await b.key('Backspace');
    }
    if (typed) {
        await b.send('Input.insertText', { text: typed });
    }
    const [name, held] = (ends || (length === undefined ? '' : 'Enter')).split('+').reverse();
    if (name) {
        await (held ? key(b, name, 13, { modifiers: CONTROL }) : b.key(name));
    }
}

// Chooses a radio button by the arrows.
async function choose(b) {
    for (let k = 0; k < ARROWS && !(await b.ask(`document.querySelector('${PRESSED}').checked`)); k++) {
        await b.key('ArrowDown');
    }
}

// What follows a press by the mouse or a finger: a list has been opened then, and a box waits for its text.
async function goOn(b, row, kind) {
    if (kind === 'list') {
        await b.key('ArrowDown');
        await b.key('Enter');
    } else if (kind === 'box' && row.typed !== undefined) {
        await type(b, row);
    }
}

const press = (hand) => async (b, row, kind) => {
    const point = await pointOf(b, row);
    if (!point) {
        return false;
    }
    await b.point(point.x, point.y, hand);
    await goOn(b, row, kind);
    return true;
};

const byKey = (pressed) => async (b, row, kind) => {
    if (!(await tabTo(b))) {
        return false;
    }
    const keys = { button: pressed, checkbox: ' ', range: 'ArrowRight', list: 'ArrowDown' };
    await (kind === 'radio' ? choose(b) : kind === 'box' ? type(b, row) : keys[kind] && b.key(keys[kind]));
    return true;
};

// The key of one letter, pressed where nothing has the focus.
async function byLetter(b, { letter }) {
    await b.key(letter);
    return true;
}

// Presses a letter without its sign, with others held down; or holds it until it has been pressed so often.
async function strike(b, letter, { modifiers = 0, times = 1 } = {}) {
    const struck = { key: letter, windowsVirtualKeyCode: letter.toUpperCase().charCodeAt(0), modifiers };
    for (let k = 0; k < times; k++) {
        await b.send('Input.dispatchKeyEvent', { type: 'rawKeyDown', autoRepeat: k > 0, ...struck });
    }
    await b.send('Input.dispatchKeyEvent', { type: 'keyUp', ...struck });
}

// The ways: each says whether the control could be pressed so. A button is pressed by two keys, and some by a letter.
const WAYS = { mouse: press('mouse'), touch: press('touch'), key: byKey('Enter'), space: byKey(' '), letter: byLetter };

module.exports = { WAYS, install, takeUp, strike, SHIFT };
