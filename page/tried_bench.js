'use strict';
// The workbench: what is seen together, its buttons, the marks in the text, and the ways from a line to its place and back.
// A mouse and keys at a desk, fingers on a telephone, in both languages.
const { pause, CONTROL } = require('./browser.js');

const SCREENS = [
    { name: 'a desk', wide: 1366, high: 768, kind: 'mouse' }, { name: 'a small desk', wide: 1280, high: 720, kind: 'mouse' },
    { name: 'a telephone', wide: 360, high: 740, kind: 'touch' },
];
const NAMES = {
    en: { run: 'Run', toProgram: 'To the program', check: 'Check', new: 'New', toLesson: 'Back to the lesson', toPlace: 'To place' },
    de: { run: 'Los', toProgram: 'Bis zum Programm', check: 'Prüfen', new: 'Neu', toLesson: 'Zur Lektion', toPlace: 'Bis Platz' },
};
// Five is added to 4, and again and again, with a letter each time.
const LOOP = 'segment main\nloop: A number F\nA two F\nT number F\nO letter F\nE loop F\nnumber: word 4 ; it grows\ntwo: word 5\nletter: A F\nenter main\n';
const LETTER = 'segment main\nO a F\nO b F\nZ F\na: * F\nb: Q F\nenter main\n';

// Opens the page on a screen, in a language, and gives the session that was before.
async function openOn(b, { wide, high, kind }, language) {
    const was = b.session;
    await b.open(`#lang=${language}`, () => b.size(wide, high, kind === 'touch'));
    await b.send('Emulation.setTouchEmulationEnabled', { enabled: kind === 'touch' });
    await b.send('Page.bringToFront');
    return was;
}

// Screens in each language, from the exhibit on.
async function each(b, does, screens = SCREENS.filter(({ wide }) => wide !== 1280)) {
    const first = b.session;
    for (const screen of screens) {
        for (const language of ['en', 'de']) {
            await openOn(b, screen, language);
            await does(b, screen, language, `on ${screen.name}, ${language}`);
        }
    }
    b.session = first;
    await b.send('Page.bringToFront');
}

// The boxes of parts of the page in the window.
function boxesOf(...ids) {
    return ids.map((id) => {
        const { left, top, right, bottom } = document.querySelector(id).getBoundingClientRect();
        return [left, top, right, bottom].map(Math.round);
    });
}

const partsInOrder = () => [...document.querySelectorAll('main [id]')].map(({ id }) => id).join();

// Chooses a lesson by keys in its list.
async function chooseLesson(b, number) {
    await b.ask('by("lesson").focus(); 0');
    for (let k = 0; k < number; k++) {
        await b.key('ArrowDown');
    }
    await b.expect(`lesson ${number} by keys`, await b.ask('[by("lesson").value, document.activeElement.id, isBench()]'), [String(number), 'lesson', true]);
}

// What is seen at once, with and without a lesson, and the way back to the exhibit.
async function arrangement(b) {
    await each(b, async (_, screen, language, where) => {
        const before = await b.run(partsInOrder);
        await b.press('#write', screen.kind);
        await b.expect(`${where}: the text is at hand`, await b.ask('[isBench(), document.activeElement.id]'), [true, 'text']);
        await b.expect(`${where}: what to press`, [await b.text('done'), await b.ask('page.words.say("pressRun").includes(by("run").textContent)')],
            [await b.ask('page.words.say("pressRun")'), true]);
        if (screen.kind === 'mouse') {
            await besideOneAnother(b, where, ['#program', '#stage']);
        } else {
            await oneBelowAnother(b, where);
        }
        const shown = (ids) => b.run((all) => all.filter((id) => by(id).getClientRects().length > 0), ids);
        await b.expect(`${where}: no lesson, so nothing to check`, await shown(['check', 'toLesson']), []);
        await chooseLesson(b, 3);
        await b.expect(`${where}: its buttons have their names`,
            await b.run((names) => Object.fromEntries(names.map((id) => [id, by(id).textContent])), Object.keys(NAMES[language])), NAMES[language]);
        await b.expect(`${where}: and are seen`, await shown(Object.keys(NAMES[language])), Object.keys(NAMES[language]));
        if (screen.kind === 'mouse') {
            await besideOneAnother(b, where, ['#lessons', '#program', '#stage']);
        }
        await lessonAndBack(b, screen, where);
        await b.press('#toExhibit', screen.kind);
        await b.expect(`${where}: the exhibit is as it was`, [await b.ask('[isBench(), document.activeElement.id]'), await b.run(partsInOrder) === before],
            [[false, 'write'], true]);
    }, SCREENS);
}

// Columns beside one another, and all that belongs together within the window, which is not scrolled.
async function besideOneAnother(b, where, columns) {
    await b.ask('document.activeElement.blur(); scrollTo(0, 0); 0');
    const boxes = await b.run(boxesOf, ...columns);
    await b.expect(`${where}: ${columns.join(', ')} beside one another`, boxes,
        (all) => all.every(([left], k) => k === 0 || left >= all[k - 1][2]) && all.every(([left, top, right, bottom]) => right - left > 250 && bottom - top > 400));
    const parts = ['#text', '#run', '#step', '#toProgram', '#toPlace', '#new', '#now', '#lens', '#accNumber', '#paper', '#tape', '#language', '#toExhibit'];
    const [wide, high] = await b.ask('[innerWidth, innerHeight]');
    await b.expect(`${where}: all of it in the window`, await b.run(boxesOf, ...parts),
        (all) => all.every(([left, top, right, bottom]) => left >= 0 && top >= 0 && right <= wide && bottom <= high && right > left && bottom > top));
    const [text, lens, paper] = await b.run(boxesOf, '#text', '#lens', '#paper');
    await b.expect(`${where}: room for the text, the rows and the paper`, [text, lens, paper].map(([, top, , bottom]) => bottom - top),
        ([one, two, three]) => one > 200 && two > 180 && three > 80);
    await b.expect(`${where}: nothing beyond the window's sides`, await b.ask('document.documentElement.scrollWidth <= innerWidth'), true);
    const cut = await b.run(() => [...document.querySelectorAll('#bar button, .files button, #note, #who, #accNumber, #timesBox, #marked, #lens .brief')]
        .filter((node) => node.scrollWidth > node.clientWidth + 2 && getComputedStyle(node).display !== 'inline').map((node) => node.id || node.className));
    await b.expect(`${where}: no text is cut off`, cut, []);
}

// On a telephone the text comes first, and the machine's buttons are at the lower edge.
async function oneBelowAnother(b, where) {
    await b.ask('scrollTo(0, 0); 0');
    const tops = (await b.run(boxesOf, '#lesson', '#examples', '#text', '#bar', '#now', '#paper', '#lens', '#accNumber', '#tape', '#store')).map(([, top]) => top);
    await b.expect(`${where}: one below the other`, tops, (all) => all.every((top, k) => k === 0 || top > all[k - 1]));
    const [run] = await b.run(boxesOf, '#run');
    await b.expect(`${where}: Run is at the lower edge`, run, ([, top, , bottom]) => top > 650 && bottom <= 740);
    await b.expect(`${where}: the sentence is near`, tops[4], (top) => top < 700);
    await b.expect(`${where}: nothing beyond the window's sides`, await b.ask('document.documentElement.scrollWidth <= innerWidth'), true);
}

// Back to the lesson, and on a telephone to the text again.
async function lessonAndBack(b, { kind }, where) {
    await b.ask('by("lessons").scrollTop = 5000; 0');
    await b.press('#toLesson', kind);
    const seen = await b.run(() => {
        const { top } = by('lessonBox').getBoundingClientRect();
        return [/^H\d$/.test(document.activeElement.tagName), by('lessons').contains(document.activeElement), by('lessons').scrollTop, top];
    });
    await b.expect(`${where}: the lesson from its beginning`, seen, ([isHead, isIn, scrolled, top]) => isHead && isIn && scrolled === 0 && top >= -2 && top < 200);
    if (kind === 'touch') {
        await b.press('#toText', kind);
        await b.expect(`${where}: and the text again`, await b.run(() => {
            const { top, bottom } = by('text').getBoundingClientRect();
            return [document.activeElement.id, top >= 0 && bottom < innerHeight - 60];
        }), ['text', true]);
    }
}

// New, own work that is asked about, and Control with Enter.
async function typing(b) {
    await each(b, async (_, { kind }, language, where) => {
        await b.set('speed', '3'); // 650 orders a second: at 50 the runs would take a minute
        await b.press('#write', kind);
        await b.press('#new', kind);
        const made = await b.ask('[page.program.kind, page.program.text.split("\\n").slice(1), document.activeElement.id, by("refusal").hidden, by("stories").value]');
        const stop = { en: 'Z F               ; stop', de: 'Z F               ; halt' }[language];
        await b.expect(`${where}: a new source`, made, ['source', ['segment main', stop, 'enter main', ''], 'text', true, 'own']);
        await b.write('#text', LETTER, kind);
        await b.key('Enter', CONTROL);
        await b.expect(`${where}: Control and Enter run it`, await b.until('page.shown.ending === "stopped" && page.program.text.includes("Q F")'), true);
        await b.expect(`${where}: as it is now`, [await b.ask('by("text").value === page.program.text'), (await b.text('paper')).trim()], [true, 'Q']);
        await b.press('#new', kind);
        await b.expect(`${where}: own work is asked about`, await b.ask('[by("ask").hidden, by("text").value]'), [false, LETTER]);
        await b.press('#keep', kind);
        await b.expect(`${where}: and kept`, await b.ask('[by("ask").hidden, by("text").value]'), [true, LETTER]);
        await b.press('#new', kind);
        await b.press('#replace', kind);
        await b.expect(`${where}: or replaced`, await b.ask('by("text").value.includes("Q F")'), false);
        await b.write('#text', LETTER, kind);
        await b.press('#run', kind);
        await b.expect(`${where}: Run reads what was just typed`, await b.until('page.program.text.includes("Q F") && page.shown.ending === "stopped"', 20), true);
        await b.write('#text', LETTER.replace('Z F', 'Z'), kind);
        await b.key('Enter', CONTROL);
        await b.expect(`${where}: a refused text doesn't run`, await b.ask('[by("refusal").hidden, isAlive(), page.running === undefined, by("times").textContent]'), [false, false, true, '']);
    });
}

// To the program, and to places: reached, reached again, not reached because the machine stopped, ended by Pause, too far.
async function places(b) {
    await each(b, async (_, { kind, name }, language, where) => {
        const say = (key, values) => b.run((one, all) => page.words.say(one, all), key, values);
        await b.press('#write', kind);
        await b.press('#new', kind);
        await b.write('#text', LOOP, kind);
        await reached(b, kind, where, say);
        await b.write('#placeWanted', '1024', kind);
        await b.press('#toPlace', kind);
        await b.expect(`${where}: no such place`, [await b.text('reached'), await b.ask('page.running === undefined')], [await say('noSuchPlace', { last: 1023 }), true]);
        await b.write('#placeWanted', '900', kind);
        await b.press('#toPlace', kind);
        await pause(700);
        await b.press('#run', kind);
        const paused = await b.ask('[page.running === undefined, page.shown.orders > 400, by("reached").textContent]');
        await b.expect(`${where}: Pause ends it`, paused, [true, true, '']);
        if (language === 'en' && name === 'a desk') {
            await tooFar(b, say);
        }
        await b.write('#text', LETTER, kind);
        await b.press('#toPlace', kind);
        await b.until('page.running === undefined && page.shown.ending === "stopped"');
        await b.expect(`${where}: the machine stops before`, await b.text('reached'), await say('notReached', { place: 900 }));
    });
}

// The program's first order, and places that are reached: it stops there, in the picture that a run from Start has too.
async function reached(b, kind, where, say) {
    await b.press('#toProgram', kind);
    const [entry, ...at] = await b.run(() => {
        let shown = pictureAt(0);
        while (shown.counter < 41) {
            shown = pictureAt(shown.orders + 1, shown);
        }
        return [shown.orders, page.shown.orders, page.shown.counter];
    });
    await b.expect(`${where}: the program's first order`, at, [entry, 56]);
    for (const [place, orders, number] of [[59, 3, 3], [59, 8, 5], [56, 10, 2], [57, 11, 1]]) {
        await b.write('#placeWanted', String(place), kind);
        await (orders === 8 ? b.key('Enter') : b.press('#toPlace', kind));
        await b.until('page.running === undefined');
        await b.expect(`${where}: to place ${place}`, await b.ask('[page.shown.counter, page.shown.orders, by("reached").textContent]'),
            [place, entry + orders, await say(number === 1 ? 'reachedNext' : 'reached', { place, orders: number })]);
    }
    await b.expect(`${where}: the same picture as from Start`, await b.run(() => {
        const wanted = page.machine.picture(page.program, page.shown.orders), { words, acc, counter } = page.shown;
        return [words.join() === wanted.words.join(), acc === wanted.acc, counter === wanted.counter, page.shown.way.text(0, page.shown.printed) === wanted.paper];
    }), [true, true, true, true]);
}

const LOOK = 0.25; // milliseconds that the clock of the page goes on at each look, while it tries them
const PICTURES = 60; // that it paints at least then, on any computer: 12 / 0.25 looks a picture, 64 orders a look

// A place to which the program never comes: a stated number of orders is tried, in slices.
async function tooFar(b, say) {
    const from = await b.ask('page.shown.orders');
    await b.run(() => {
        window.slices = 0;
        const count = () => { window.slices++; requestAnimationFrame(count); };
        count();
    });
    await b.ask(`window.looks = 0; performance.now = () => ${LOOK} * window.looks++; 0`);
    await b.press('#toPlace');
    await b.expect('a place that is never reached', await b.until('page.running === undefined', 120), true);
    await b.ask('delete performance.now; 0');
    await b.expect('is given up', [(await b.ask('page.shown.orders')) - from, await b.text('reached')],
        [await b.ask('SOUGHT'), await say('notReachedYet', { place: 900, orders: '200,000' })]);
    await b.expect('while the page stays alive', await b.ask('window.slices'), (frames) => frames > PICTURES);
}

module.exports = { openOn, each, boxesOf, chooseLesson, LOOP, parts: { arrangement, typing, places } };
