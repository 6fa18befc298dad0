'use strict';
// A museum's screen: its stories, its countdown, what its address asks for, and that nothing leaves it.
const { pause } = require('./browser.js');
const { hasten } = require('./hasten.js');

const WAIT = 13; // seconds after a story in which the next one has begun

// What each box holds.
function stateOf() {
    const boxes = [...document.querySelectorAll('input, select, textarea, details')];
    return boxes.map((box) => [box.id, box.open, box.checked, box.tagName === 'DETAILS' ? undefined : box.value]);
}

// The clock of a kiosk is moved by some seconds, and the kiosk looks at it.
const later = (b, seconds) => b.ask(`page.shift += ${seconds * 1000}; page.kiosk.look(); 0`);

async function openKiosk(b, hash, size = [1280, 720]) {
    await b.open(hash, () => b.size(...size));
    await b.ask('page.shift = performance.now(); page.clock = () => page.shift; 0'); // on a busy computer seconds pass between two lines
}

// It begins at once, and its stories rotate.
async function rotation(b) {
    await openKiosk(b, '#kiosk=60,quiet');
    await b.expect('a kiosk begins at once, without its bell', await b.run(() => [
        page.tour !== undefined, by('sound').checked, page.kiosk.seconds, document.documentElement.className,
    ]), [true, false, 60, 'kiosk']);
    await b.run(hasten, 0.005);
    for (const name of ['letter', 'name', 'changes', 'disc', 'sum', 'first', 'mirror', 'fault', 'letter']) {
        const told = [await b.ask('by("stories").value'), await b.until('page.tour === undefined')];
        await b.expect(`its stories rotate: ${name}`, told, [name, true]);
        await later(b, WAIT);
    }
    await b.unsize();
}

// What a visitor leaves is gone, after a countdown.
async function kiosk(b) {
    await openKiosk(b, '#kiosk=60,quiet');
    await b.run(hasten, 0.005);
    await b.until('page.tour === undefined');
    await b.ask('page.kiosk.reset(); 0');
    const wanted = await b.run(stateOf);
    await leaveTraces(b);
    await b.click('run');
    await b.expect('an endless run in a kiosk', await b.until('page.shown.orders > 2000 && page.running !== undefined'), true);
    await countdown(b);
    await b.expect('then it begins again', await b.run(() => [
        page.running === undefined, page.tour !== undefined, by('stories').value, by('countdown').hidden,
        scrollY, document.activeElement.tagName, document.documentElement.lang,
    ]), [true, true, 'letter', true, 0, 'BODY', 'en']);
    await b.ask('halt(); 0');
    await b.expect('every box is as it was', await b.run(stateOf), wanted);
    await b.expect('and nothing of a visitor is left', await b.run(() => [
        by('ask').hidden, by('linked').hidden, by('refusal').hidden, by('text').style.height, by('follow').getAttribute('aria-pressed'),
        kept.former.length === 0, by('undo').disabled,
        [...document.body.children].some((node) => node.tagName !== 'SCRIPT' && node.textContent.includes('BOB')),
    ]), [true, true, true, '', 'true', true, true, false]);
    await b.ask('by("write").click(); 0');
    await b.expect('it has no workbench', await b.ask('isBench()'), false);
    await b.ask('halt(); by("text").focus(); page.kiosk.reset(); page.shift += 13000; 0');
    await b.expect('nor a box that is typed in', await b.ask('document.activeElement.tagName'), 'BODY');
    await b.expect('and looks at its clock by itself', await b.until('page.tour !== undefined', 4), true);
    await b.unsize();
}

// What a visitor leaves: another language, open boxes, choices, an own text.
async function leaveTraces(b) {
    await b.speak('de');
    await b.run(() => {
        document.querySelectorAll('details').forEach((box) => { box.open = true; });
        document.querySelectorAll('input[type=checkbox]').forEach((box) => box.click());
    });
    const chosen = { figures: 'whole', lesson: '3', name: 'BOB', examples: '9', speed: '5', tank: '5' };
    for (const [id, value] of Object.entries(chosen)) {
        await b.set(id, value);
    }
    await b.ask(`by('text').style.height = '700px'; window.scrollTo(0, 9999); by('text').focus(); 0`);
    await b.click('isTape');
    await b.type('T64K GK E@ EZPF');
    await b.set('examples', '2');
    await b.click('keep');
    await b.ask('makeLink(); 0');
}

// Before a visitor's work is lost there is a countdown, which a touch stops.
async function countdown(b) {
    const seen = '[by("countdown").hidden, by("count").textContent, page.running !== undefined, by("text").value]';
    const own = 'T64K GK E@ EZPF';
    await b.key('Shift');
    await later(b, 49);
    await b.expect('not before its time', await b.ask(seen), [true, '', true, own]);
    await later(b, 4);
    await b.expect('the last seconds are counted', await b.ask(seen), [false, '7', true, own]);
    await b.expect('by a sentence that is announced', [await b.ask('by("countdown").getAttribute("role")'), await b.text('countdown')],
        ['alert', 'Ist noch jemand da? Tippe auf den Bildschirm, sonst beginnt hier alles von vorn. 7']);
    await b.shot('countdown.png');
    await b.press('#countdown', 'touch');
    await b.expect('a touch stops it', await b.ask(seen), [true, '', true, own]);
    await later(b, 49);
    await b.expect('and the time begins anew', await b.ask(seen), [true, '', true, own]);
    await b.ask('page.hurry = 1; 0');
    await later(b, 12);
}

// What the address may ask for.
async function kioskAddress(b) {
    await openKiosk(b, '#kiosk=20,quiet,story=sum,story=disc,pause=30,stage&lang=de');
    await b.expect('its seconds, its pause, its language, the machine alone', await b.run(() => [
        page.kiosk.seconds, page.kiosk.between, document.documentElement.lang, by('write').getClientRects().length,
        [...document.querySelectorAll('main > *')].filter((node) => node.getClientRects().length > 0).map((node) => node.id),
        document.documentElement.scrollHeight <= innerHeight,
    ]), [20, 30, 'de', 0, ['stage'], true]);
    await b.run(hasten, 0.001);
    for (const name of ['sum', 'disc', 'sum']) {
        const told = [await b.ask('by("stories").value'), await b.until('page.tour === undefined')];
        await b.expect(`its own stories: ${name}`, told, [name, true]);
        await later(b, 24);
        await b.expect('not before its pause', await b.ask('page.tour === undefined'), true);
        await later(b, 7);
    }
    await b.unsize();
}

// The buttons and links by which something leaves the page, as far as they are seen with everything open.
const LEAVING = `(() => {
    document.querySelectorAll('details').forEach((box) => { box.open = true; });
    by('lesson').value = '3';
    drawLesson();
    const leaves = ['save', 'open', 'link', 'saveTape', 'printTape', 'printWorksheet', 'printSheet', 'printLoaders'].map(by);
    return [...leaves, by('file'), ...document.querySelectorAll('a, iframe, form, [download]')]
        .filter((node) => node.getClientRects().length > 0).map((node) => node.id || node.tagName);
})()`;

// Nothing that leaves the page: neither a file nor print nor a link, whatever is pressed.
async function leaves(b) {
    await openKiosk(b, '');
    await b.expect('at home there are files, print and links', await b.ask(LEAVING),
        ['save', 'open', 'link', 'saveTape', 'printTape', 'printWorksheet', 'printSheet', 'printLoaders']);
    await openKiosk(b, '#kiosk=60,quiet');
    await b.expect('and in a kiosk none', await b.ask(LEAVING), []);
    const left = await b.run(() => {
        const gone = [];
        window.print = () => gone.push('print');
        window.open = () => gone.push('open');
        URL.createObjectURL = () => gone.push('file');
        HTMLInputElement.prototype.showPicker = () => gone.push('picker');
        const seen = () => [...document.querySelectorAll('button, summary')].filter((node) => node.getClientRects().length > 0);
        const count = seen().length;
        seen().forEach((button) => button.click());
        halt();
        return [gone, count > 25, location.hash];
    });
    await b.expect('whatever is pressed', left, [[], true, '#kiosk=60,quiet']);
    await b.unsize();
}

// A name and Enter start its story, and it goes on when the box is left; a kiosk's own story may be under way.
async function enter(b) {
    await openKiosk(b, '#kiosk=60,quiet');
    await b.set('stories', 'name');
    await b.click('name');
    for (const key of ['A', 'd', 'a', 'Enter']) {
        await b.key(key);
    }
    await pause(300);
    const told = '[page.tour !== undefined, by("stories").value, page.program.text === tapeOf("ADA")]';
    await b.expect('a name and Enter start its story', await b.ask(told), [true, 'name', true]);
    await b.point(640, 60, 'mouse');
    await b.ask('document.activeElement.blur(); 0');
    await pause(300);
    await b.expect('which goes on when the box is left', await b.ask(told), [true, 'name', true]);
    await b.ask('page.hurry = 0.01; 0');
    await b.expect('and prints it', await b.until('page.tour === undefined && by("paper").textContent === "ADA"', 30), true);
    await b.unsize();
}

module.exports = { openKiosk, parts: { rotation, kiosk, kioskAddress, leaves, enter } };
