'use strict';
// Each control of the page, pressed by the mouse, by keys and by a finger. page/each_stage.js and page/each_program.js list the
// controls with what each does; the page is looked through for one that they don't have.
const { STAGE } = require('./each_stage.js');
const { BENCH } = require('./each_program.js');
const fs = require('fs');
const path = require('path');
const { pause, CONTROL } = require('./browser.js');
const { WAYS, install, takeUp, strike, SHIFT } = require('./each_way.js');

const ROWS = [...STAGE, ...BENCH];
const CONTROLS = 'a[href], area, button, summary, input, select, textarea, canvas, iframe, object, audio, video, [contenteditable], [tabindex]:not([tabindex="-1"]), '
    + '[role=button], [role=link], [role=checkbox], [role=tab], [role=menuitem], [role=slider], [data-listens]';
// What no hand does: it follows from something else.
const NO_HAND = ['toggle', 'scroll', 'visibilitychange'];
const MARK = 'function mark() { if (this.dataset) { this.dataset.listens = ""; } }'; // the document can't be marked
const OWN_WORK = 'openBench(); by("lesson").value = "2"; by("lesson").onchange(); replacing(() => put({ text: "T64K", kind: "tape" })); showFormer(true)';
const STATES = [['', ''], ['', `${OWN_WORK}; makeLink()`], ['', `${OWN_WORK}; preparePrint("page")`], ['#kiosk=60,quiet', '']];
const HELD = { Control: CONTROL, Alt: 1, Meta: 4 };
const SCREENS = { desk: [1280, 800, false], telephone: [360, 740, true] };
const LOOKS = 20, BETWEEN = 50; // how often it is looked whether a press is seen, and the milliseconds between
const SAME_PRESS = 600; // milliseconds, and some more, in which a second press is the same
const LETTERS = new Map(ROWS.filter(({ letter }) => letter).map(({ control, letter }) => [control, letter]));
const SELECTORS = [...new Set(ROWS.map(({ control }) => control))];

// Opens the page on a screen, ready for many presses.
async function openOn(b, screen) {
    const [, , isTouch] = SCREENS[screen];
    await b.open('', () => b.size(...SCREENS[screen]));
    await b.send('Emulation.setTouchEmulationEnabled', { enabled: isTouch });
    await b.send('Emulation.setEmulatedMedia', { features: [{ name: 'prefers-reduced-motion', value: 'reduce' }] }); // it is quicker
    await install(b);
}

// The controls that are on the page and that no row has, or more than one; a copy on paper is none.
function unlisted(controls, selectors) {
    const all = [...document.querySelectorAll(controls)].filter((node) => !node.closest('#printed'));
    return all.filter((node) => selectors.filter((one) => node.matches(one)).length !== 1)
        .map((node) => `${node.tagName} ${node.id} in ${node.parentElement.id || node.parentElement.className}`);
}

// The page made new, and brought into a state. To go into the workbench and back takes long, so it stays for the next state.
const anew = (b, state) => b.ask(`(async () => { renew(${/openBench|"lesson"/.test(state)}); ${state}; })()`);

// What is seen, once it is as wanted, or after a while.
async function settled(b, see, wanted) {
    for (let k = 0; k < LOOKS; k++) {
        const got = await b.ask(see);
        if (JSON.stringify(got) === JSON.stringify(wanted)) {
            return got;
        }
        await pause(BETWEEN);
    }
    return b.ask(see);
}

// One press of one control: what is seen before and after. Its kind.
async function tryPress(b, way, row, number) {
    const what = `${row.control} ${number || ''} by ${way}, ${row.does}`;
    const isNot = row.not[way === 'space' ? 'key' : way] !== undefined;
    await b.expect(`${what}: before`, await settled(b, row.see, row.was), row.was);
    const kind = await takeUp(b, row.control, number);
    if (row.rests) {
        await pause(SAME_PRESS);
    }
    const could = await WAYS[way](b, row, kind);
    const is = isNot ? row.was : typeof row.is === 'function' ? row.is(number) : row.is;
    await b.expect(`${what}: can be pressed`, could, (said) => said || isNot);
    await b.expect(`${what}: after`, await settled(b, row.see, is), is);
    return kind;
}

// All presses of the controls of a row by one way.
async function tryRow(b, way, row) {
    await anew(b, row.from);
    const count = await b.ask(`document.querySelectorAll(${JSON.stringify(row.control)}).length`);
    await b.expect(`${row.control} is on the page`, count > 0, true);
    const numbers = row.which || Array.from({ length: count }, (_, k) => k);
    let kind;
    for (const number of numbers) {
        if (number !== numbers[0]) {
            await (row.again ? b.ask(`${row.again}; 0`) : anew(b, row.from));
        }
        kind = await tryPress(b, way, row, number);
    }
    for (const more of [kind === 'button' && 'space', row.letter && 'letter'].filter((one) => one && way === 'key')) {
        await anew(b, row.from);
        await tryPress(b, more, row, numbers[0]);
    }
}

// Each row by one way, on its own screen or else on the one given.
async function tryAll(b, way, usual, all = ROWS) {
    for (const screen of Object.keys(SCREENS)) {
        const rows = all.filter((row) => (row.screen || usual) === screen);
        if (rows.length) {
            await openOn(b, screen);
        }
        for (const row of rows) {
            await tryRow(b, way, row);
            if (way === 'mouse') { // the other ways come to the same states
                await b.expect(`controls that have no row, after ${row.control}`, await b.run(unlisted, CONTROLS, SELECTORS), []);
            }
        }
    }
    await b.unsize();
}

const eachByMouse = (b) => tryAll(b, 'mouse', 'desk');
const eachByKeys = (b) => tryAll(b, 'key', 'desk');
const eachByTouch = (b) => tryAll(b, 'touch', 'telephone');

// Marks each part that listens to a hand or a key, by the browser's own account. How many of its listeners there are.
async function markListeners(b) {
    await b.send('DOM.getDocument');
    const { result } = await b.send('Runtime.evaluate', { expression: 'document' });
    const { listeners } = await b.send('DOMDebugger.getEventListeners', { objectId: result.objectId, depth: -1 });
    for (const { backendNodeId } of listeners.filter(({ type }) => !NO_HAND.includes(type))) {
        const { object: { objectId } } = await b.send('DOM.resolveNode', { backendNodeId });
        await b.send('Runtime.callFunctionOn', { objectId, functionDeclaration: MARK });
    }
    return listeners.length;
}

// Each control of the page has a row, and each row is a control of it: on opening, with all open, and in a museum.
async function eachIsListed(b) {
    const missing = new Set(SELECTORS);
    for (const [hash, state] of STATES) {
        await b.open(hash);
        await b.ask(`${state}; 0`);
        await b.expect(`${hash} ${state}: what listens`, await markListeners(b), (count) => count > 100);
        await b.expect(`${hash} ${state}: controls that have no row`, await b.run(unlisted, CONTROLS, SELECTORS), []);
        (await b.run((selectors) => selectors.filter((one) => document.querySelector(one)), SELECTORS)).forEach((one) => missing.delete(one));
    }
    await b.expect('rows that are no control', [...missing], []);
    const keys = await b.run(() => [...document.querySelectorAll('[aria-keyshortcuts]')].map((node) => [`#${node.id}`, node.getAttribute('aria-keyshortcuts')]));
    await b.expect('the keys of one letter', keys.sort(), [...LETTERS].sort());
    await b.expect('docs/PAGE.md names them', keys.map(([, key]) => key).sort(), namedKeys());
    await b.expect('a way that is left out has its reason', ROWS.filter(({ not }) => Object.values(not).some((why) => why.length < 5)), []);
}

// The keys of one letter that docs/PAGE.md names.
function namedKeys() {
    const [, list] = fs.readFileSync(path.join(__dirname, '../docs/PAGE.md'), 'utf8').match(/the keys ([^;|]*?) press /);
    return list.split(/, | and /).map((name) => name.toLowerCase()).sort();
}

// The buttons that some keys press, from a state of the page.
async function pressedBy(b, from, does) {
    await anew(b, from);
    await does();
    return b.ask('pressed()');
}

// A key of one letter is held: it goes on stepping, but Show me and Run are pressed once. With Control, Alt or Meta it is the
// browser's, with Shift it is the same key, and without the box that is beside the bell it is none.
async function lettersHeld(b) {
    await openOn(b, 'desk');
    for (const [control, letter] of LETTERS) {
        const id = control.slice(1);
        const wanted = ['show', 'run'].includes(id) ? [id] : [id, id, id];
        await b.expect(`${letter} that is held`, await pressedBy(b, 'look(10)', () => strike(b, letter, { times: 3 })), wanted);
        await b.expect(`${letter} with Shift`, await pressedBy(b, 'look(10)', () => strike(b, letter.toUpperCase(), { modifiers: SHIFT })), [id]);
        for (const [name, modifiers] of Object.entries(HELD)) {
            await b.expect(`${letter} with ${name}`, await pressedBy(b, 'look(10)', () => strike(b, letter, { modifiers })), []);
        }
        await b.expect(`${letter} where the keys are off`, await pressedBy(b, 'look(10); by("keys").checked = false', () => strike(b, letter)), []);
        await b.expect(`${letter} where a button has the focus`, await pressedBy(b, 'look(10); by("write").focus()', () => strike(b, letter)), [id]);
    }
    await b.expect('b at Start, where Back can not be pressed', await pressedBy(b, '', () => strike(b, 'b')), []);
    await b.expect('a key that is no letter of a button', await pressedBy(b, 'look(10)', () => strike(b, 'x')), []);
}

// Where somebody types or chooses from a list, such a key presses nothing.
async function lettersTyped(b) {
    await openOn(b, 'desk');
    const boxes = new Map(ROWS.map((row) => [row.control, row]));
    const tried = [];
    for (const { control, from } of boxes.values()) {
        await anew(b, `look(10); ${from}`);
        if (!['box', 'list'].includes(await takeUp(b, control, 0))) {
            continue;
        }
        tried.push(control);
        await b.ask('document.querySelector("[data-pressed]").focus(); pressed(); 0');
        await b.expect(`${control} has the focus`, await b.ask('document.activeElement.dataset.pressed'), '');
        for (const letter of LETTERS.values()) {
            await b.key(letter);
        }
        await b.expect(`letters that are typed into ${control}`, await b.ask('pressed()'), []);
    }
    await b.expect('boxes and lists', tried.length, (count) => count > 10);
    await b.unsize();
}

module.exports = { ROWS, tryAll, parts: { eachByMouse, eachByKeys, eachByTouch, eachIsListed, lettersHeld, lettersTyped } };
