'use strict';
// The marks in the text, and the ways from a line to its place in the store and back, by a mouse, by keys and by a finger; and
// the rules of contrast, borders and names in the workbench.
const rules = require('./rules.js');
const { each, openOn, chooseLesson, LOOP } = require('./tried_bench.js');

// The line of a mark as it is seen: which line of the colours, by its first label or word, is at the mark's height.
function linesMarked() {
    const lines = [...document.querySelectorAll('#colours span')].filter((span) => span.getClientRects().length).map((span) => (
        { text: span.textContent.trim(), top: span.getBoundingClientRect().top, bottom: span.getBoundingClientRect().bottom }));
    return Object.fromEntries([...by('marks').children].map((mark) => {
        const { top, bottom } = mark.getBoundingClientRect();
        const at = lines.find((line) => line.text !== '' && (line.top + line.bottom) / 2 > top && (line.top + line.bottom) / 2 < bottom);
        return [mark.className, at && at.text];
    }));
}

// Where a label of the text is in the window.
function labelAt(label) {
    const span = [...document.querySelectorAll('#colours .label')].find((one) => one.textContent.trim() === label);
    const { left, top, width, height } = span.getBoundingClientRect();
    return [left + width / 2, top + height / 2];
}

const found = () => [...document.querySelectorAll('#lens .found')].map((row) => row.cells[0].textContent);

// What comes next, and what has changed.
async function marks(b) {
    await each(b, async (_, { kind }, language, where) => {
        await b.press('#write', kind);
        await b.press('#new', kind);
        await b.write('#text', LOOP, kind);
        await b.press('#toProgram', kind);
        await b.expect(`${where}: the first order's line`, await b.run(linesMarked), { next: 'loop:' });
        await b.press('#step', kind);
        await b.press('#step', kind);
        await b.expect(`${where}: an order on`, await b.run(linesMarked), { next: 'T' });
        await b.press('#step', kind);
        await b.expect(`${where}: the line of the changed word as well`, await b.run(linesMarked), { next: 'O', changed: 'number:' });
        const said = { en: '▶ Line 5 comes next: place 59. ≠ Line 7 has just changed: place 61.', de: '▶ Zeile 5 kommt als Nächstes: Platz 59. ≠ Zeile 7 hat sich eben geändert: Platz 61.' };
        await b.expect(`${where}: in words`, await b.text('marked'), said[language]);
        const did = { en: 'Place 61 was 4 and is now 9. The accumulator was 9 and is now 0.', de: 'Platz 61 war 4 und ist jetzt 9. Der Akkumulator war 9 und ist jetzt 0.' };
        await b.expect(`${where}: the sentence`, await b.text('did'), did[language]);
        await b.press('#back', kind);
        await b.expect(`${where}: back`, await b.run(linesMarked), { next: 'T' });
        await thereAndBack(b, kind, where);
        await wordless(b, kind, where, language);
        await b.write('#text', `${LOOP} `, kind);
        await b.expect(`${where}: no marks while keys are typed`, await b.run(linesMarked), {});
    });
}

// From a line to its place, by a press on it, on its number, or by the caret; from a row to its line; a row's number opens it.
async function thereAndBack(b, kind, where) {
    const shown = await b.ask('page.shown.orders');
    await b.ask('by("text").scrollIntoView({ block: "center" }); 0');
    await b.point(...(await b.run(labelAt, 'letter:')), kind);
    await b.expect(`${where}: a line's place`, [await b.run(found), (await b.run(linesMarked)).found], [['63'], 'letter:']);
    await b.key('ArrowUp');
    await b.expect(`${where}: the line above, by a key`, [await b.run(found), (await b.run(linesMarked)).found], [['62'], 'two:']);
    await b.key('ArrowUp');
    await b.key('ArrowUp');
    await b.expect(`${where}: and further up`, await b.run(found), ['60']);
    const [, top] = await b.run(labelAt, 'number:');
    const left = await b.ask('by("lines").getBoundingClientRect().left + 20');
    await b.point(left, top, kind);
    await b.expect(`${where}: by the line's number`, await b.run(found), ['61']);
    await b.expect(`${where}: which shows the rows`, await b.run(() => {
        const { top, bottom } = document.querySelector('#lens .found').getBoundingClientRect();
        return top >= 0 && bottom <= innerHeight - (isOneScreen() ? 0 : document.querySelector('.buttons').offsetHeight);
    }), true);
    const row = await b.ask('lens.places.indexOf(62) + 1');
    await b.press(`#lens tbody tr:nth-child(${row}) .brief`, kind);
    await b.expect(`${where}: from a row to its line`, [await b.run(found), (await b.run(linesMarked)).found, await b.ask('by("word").hidden')], [['62'], 'two:', true]);
    await b.expect(`${where}: which is seen`, await b.run(() => {
        const { top, bottom } = document.querySelector('#marks .found').getBoundingClientRect(), box = by('text').getBoundingClientRect();
        return top >= box.top && bottom <= box.bottom && top >= 0 && bottom <= innerHeight;
    }), true);
    await b.ask('by("lens").scrollIntoView({ block: "center" }); 0');
    await b.press(`#lens tbody tr:nth-child(${row}) button`, kind);
    await b.expect(`${where}: a row's number opens its word`, await b.ask('[by("word").hidden, opened.place]'), [false, 62]);
    await b.press('#wordClose', kind);
    await b.expect(`${where}: the machine stands where it stood`, await b.ask('page.shown.orders'), shown);
}

// A press on the number of a line that puts no word into the store, which is the first one, six above `number:`.
async function wordless(b, kind, where, language) {
    await b.ask('by("text").scrollIntoView({ block: "center" }); 0');
    const [, top] = await b.run(labelAt, 'number:');
    const [left, pitch] = await b.ask('[by("lines").getBoundingClientRect().left + 20, lineSizes().pitch]');
    await b.point(left, top - 6 * pitch, kind);
    const said = { en: 'Line 1 puts no word into the store.', de: 'Zeile 1 bringt kein Wort in den Speicher.' };
    await b.expect(`${where}: the number of a line without words`, (await b.text('marked')).endsWith(said[language]), true);
}

// A tape's items have marks of their own, in a line of several.
async function tapes(b) {
    const was = await openOn(b, { wide: 1366, high: 768, kind: 'mouse' }, 'en');
    await b.press('#write');
    await b.choose('name.tape');
    await b.press('#toProgram');
    await b.press('#step');
    const box = () => {
        const [mark] = document.querySelectorAll('#marks .next'), { left, width } = getComputedStyle(mark, '::after');
        const range = document.createRange(), at = by('text').value.indexOf('O7@');
        const walker = document.createTreeWalker(by('colours'), NodeFilter.SHOW_TEXT);
        let from = 0;
        while (walker.nextNode()) {
            const { length } = walker.currentNode;
            if (at >= from && at < from + length) {
                range.setStart(walker.currentNode, at - from);
                range.setEnd(walker.currentNode, at - from + 1);
            }
            from += length;
        }
        const wanted = range.getBoundingClientRect();
        return [Math.abs(mark.getBoundingClientRect().left + parseFloat(left) - wanted.left), Math.abs(parseFloat(width) - 3 * wanted.width)];
    };
    await b.expect('the mark of an item is where the item is', await b.run(box), (all) => all.every((apart) => apart < 1.5));
    await b.expect('and is named', await b.text('marked'), '▶ O7@ in line 3 comes next: place 65.');
    await b.ask('findPlace(300); 0');
    await b.expect('a place without a line', await b.text('marked'), '▶ O7@ in line 3 comes next: place 65. Place 300 has no line in this text.');
    await b.choose('decimals.edsac');
    await b.expect('the text follows the order that comes next', await b.run(() => {
        look(entryAfter(0) + 5);
        by('text').scrollTop = by('text').scrollHeight;
        follows();
        look(entryAfter(0));
        const { part: { line } } = marksNow().find(({ kind }) => kind === 'next'), { pitch } = lineSizes();
        return line * pitch >= marked.top - 1 && (line + 1) * pitch <= marked.top + by('text').clientHeight + 1;
    }), true);
    b.session = was;
}

const SCHEMES = [
    [{ name: 'prefers-color-scheme', value: 'light' }], [{ name: 'prefers-color-scheme', value: 'dark' }],
    [{ name: 'forced-colors', value: 'active' }, { name: 'prefers-color-scheme', value: 'light' }],
    [{ name: 'forced-colors', value: 'active' }, { name: 'prefers-color-scheme', value: 'dark' }],
];

// How well the text's colours are read on the band of a changed line, and the frames of the two others on the box.
function bandContrasts() {
    const value = (name) => {
        const probe = document.createElement('i');
        probe.style.color = `var(--${name})`;
        by('text').parentElement.append(probe);
        const colour = numbers(getComputedStyle(probe).color);
        probe.remove();
        return colour;
    };
    const texts = ['text', 'comment', 'label', 'order', 'word', 'string'].map((name) => ratio(value(name), value('changed')));
    return [Math.min(...texts) >= 4.5, ratio(value('next'), value('button')) >= 3, ratio(value('label'), value('button')) >= 3];
}

const STATES = {
    'with marks': () => { chooseExample(EXAMPLES.findIndex(({ name }) => name === 'hello.edsac')); look(1037); findPlace(70); },
    'with a refused text': () => { put({ text: 'segment main\nz F\n', kind: 'source' }); },
    'with a word that is open': () => {
        chooseExample(EXAMPLES.findIndex(({ name }) => name === 'hello.edsac'));
        look(1037);
        openWord(57);
        flip(3);
    },
};

// The rules of what is shown, in some schemes.
async function keepsRules(b, where, schemes) {
    for (const features of schemes) {
        await b.send('Emulation.setEmulatedMedia', { features });
        const here = `${where}, ${features.map(({ value }) => value).join(', ')}`;
        await b.expect(`${here}: contrast`, await b.run(rules.EACH['contrast of 4.5 and more']), []);
        await b.expect(`${here}: borders`, await b.run(rules.EACH['borders of 3 and more']), []);
        if (features.length === 1) {
            await b.expect(`${here}: the marks`, await b.run(bandContrasts), [true, true, true]);
        }
    }
    await b.send('Emulation.setEmulatedMedia', { features: [] });
    for (const rule of ['each control has a name', 'headings are headings', 'each id is there once']) {
        await b.expect(`${where}: ${rule}`, await b.run(rules.EACH[rule]), []);
    }
    await b.expect(`${where}: nothing beyond its sides`, await b.ask('document.documentElement.scrollWidth <= innerWidth'), true);
}

// The rules of the page in the workbench, with a lesson, with marks, with a refused text and with a word that is open.
async function benchRules(b) {
    const was = b.session;
    for (const screen of [{ wide: 1366, high: 768, kind: 'mouse' }, { wide: 360, high: 740, kind: 'touch' }]) {
        await openOn(b, screen, 'en');
        await b.run(rules.install);
        await b.press('#write', screen.kind);
        await chooseLesson(b, 3);
        for (const [what, state] of Object.entries(STATES)) {
            await b.run(state);
            await keepsRules(b, `the workbench of ${screen.wide} ${what}`, screen.kind === 'mouse' ? SCHEMES : SCHEMES.slice(0, 2));
        }
        if (screen.kind === 'touch') {
            await b.expect('buttons for a thumb', await b.run(rules.smallControls), []);
        }
        const dead = await b.run(rules.EACH['each rule of the stylesheet is understood and used']);
        await b.expect(`the workbench of ${screen.wide}: each of its rules is used`, dead.filter((rule) => rule.includes('.bench')), []);
    }
    b.session = was;
}

module.exports = { marks, tapes, benchRules };
