'use strict';
// Links that teach: what each opens, a teacher's note, damaged ones, and how one is made. The address is changed as by hand.
const { press, write, goTo, go, reload, everywhere } = require('./hand.js');

const LONG_NOTE = `Change <b>the A</b> into your letter. ${'Then run it. '.repeat(30)}`;

// For each link what it opens: the example, the story, the lesson, the speed, and whether the text is that of the example.
const LINKS = {
    '#lesson=3': { lesson: '3', view: true },
    '#view=exhibit': { view: false },
    '#view=bench': { view: true },
    '#story=disc': { story: 'disc', example: 'disc.edsac' },
    '#example=squares.tape1': { example: 'squares.tape1', kind: 'tape1' },
    '#example=sort.edsac&speed=5': { example: 'sort.edsac', kind: 'source', pace: 5 },
    '#story=fault&speed=10000': { story: 'fault', pace: 10000 },
    '#lesson=2&example=letter.edsac': { lesson: '2', example: 'letter.edsac' },
};

async function opened(b) {
    await everywhere(b, async (language, where) => {
        for (const [hash, wanted] of Object.entries(LINKS)) {
            await goTo(b, hash);
            await b.expect(`${where}: ${hash}`, await b.run((keys) => {
                const example = EXAMPLES[Number(by('examples').value || -1)];
                const all = { lesson: by('lesson').value, story: by('stories').value, example: example && example.name, kind: page.program.kind,
                    pace: speedNow(), view: isBench() };
                return Object.fromEntries(keys.map((key) => [key, all[key]]));
            }, Object.keys(wanted)), wanted);
            await b.expect(`${where}: ${hash} is no damaged link`, await b.ask('by("news").hidden'), true);
            await b.expect(
                `${where}: ${hash} waits for a visitor`,
                await b.ask('[page.tour === undefined, page.running === undefined]'),
                [true, true],
            );
        }
        await goTo(b, `#example=letter.edsac&note=${encodeURIComponent(LONG_NOTE)}`);
        await b.expect(`${where}: a note of a teacher, as plain text, above the box`, await b.run(() => [
            by('teacherNote').textContent, by('teacherNote').children.length, by('teacher').checkVisibility(),
            by('teacher').compareDocumentPosition(by('text')) & Node.DOCUMENT_POSITION_FOLLOWING,
            by('teacherNote').scrollWidth <= by('teacherNote').clientWidth, document.documentElement.scrollWidth <= innerWidth,
        ]), [LONG_NOTE.slice(0, 300), 0, true, 4, true, true]);
        await goTo(b, '#example=letter.edsac');
        await b.expect(`${where}: a link without a note has none`, await b.ask('by("teacher").hidden'), true);
        await damaged(b, language, where);
    });
    await goTo(b, '#story=letter&speed=50&view=exhibit');
    await goTo(b, '');
}

// The same links in a new tab.
async function openedAtFirst(b) {
    const was = b.session;
    for (const hash of [...Object.keys(LINKS), '#lesson=99', '#p=1AAAA', '#note=only']) {
        await b.open(hash);
        await b.expect(`${hash} in a new tab`,
            await b.run(() => [document.body.dataset.ready !== 'never', page.shown.orders, page.rows.length > 0, by('news').hidden]),
            [true, 0, true, !/99|AAAA/.test(hash)]);
        await b.expect(`${hash} in a new tab: the workbench has no Show me, and asks for none`,
            await b.run(() => isBench() && by('now').textContent.includes(by('show').textContent)), false);
    }
    b.session = was;
}

// A damaged link says so at the top of the window, wherever the page is, until that is closed or another link is opened.
async function damaged(b, language, where) {
    for (const [hash, key, what] of [['#p=1AAAA', 'badLink', ''], ['#lesson=12', 'badAddress', 'lesson=12'], ['#leson=3', 'badAddress', 'leson'],
        ['#story=own', 'badAddress', 'story=own'], ['#example=hello', 'badAddress', 'example=hello']]) {
        await b.ask('scrollTo(0, 900); 0');
        await goTo(b, hash);
        const wanted = await b.run((name, one, value) => new Words(name, LANGUAGES[name]).say(one, { what: value }), language, key, what);
        await b.expect(`${where}: the damaged link ${hash}`, await b.run(() => {
            const { top, bottom, left, right } = by('news').getBoundingClientRect();
            const over = document.elementFromPoint((left + right) / 2, (top + bottom) / 2);
            return [by('newsSays').textContent, top >= 0 && bottom <= innerHeight && bottom > top, by('news').contains(over)];
        }), [wanted, true, true]);
    }
    await goTo(b, '#example=letter.edsac');
    await b.expect(`${where}: another link takes the sentence away`, await b.ask('by("news").hidden'), true);
    await goTo(b, '#lesson=0');
    await press(b, '#newsClose');
    await b.expect(`${where}: or its button`, await b.ask('by("news").hidden'), true);
    await b.ask('scrollTo(0, 0); 0');
}

// A link is made, with a lesson, a speed and a note, and opened in a new tab; from a file it has the base that the page's
// first lines set.
async function made(b) {
    await everywhere(b, async (language, where, kind) => {
        await goTo(b, '#example=hello.edsac&lesson=4');
        await press(b, '#link', kind);
        await b.until('!by("linked").hidden && by("linkText").value !== ""');
        const link = () => b.ask('by("linkText").value.split("#")');
        await b.expect(`${where}: an example is named`, (await link())[1], 'example=hello.edsac');
        await b.expect(
            `${where}: from a file`,
            await b.ask('by("linkAlone").textContent'),
            await b.ask('page.words.say("linkAlone")'),
        );
        await press(b, '#linkLesson', kind);
        await press(b, '#linkSpeed', kind);
        await press(b, '#linkView', kind);
        await write(b, '#linkNote', 'Für euch: A & B');
        await b.until('by("linkText").value.endsWith("B")', 10);
        await b.expect(`${where}: with the lesson, the speed, the view and a note`, (await link())[1],
            `lesson=4&example=hello.edsac&speed=${await b.ask('speedNow()')}&view=bench&note=F%C3%BCr+euch%3A+A+%26+B`);
        await press(b, '#linkLesson', kind);
        await press(b, '#linkSpeed', kind);
        await press(b, '#linkView', kind);
        await write(b, '#text', 'T64K GK ZF EZPF [own]');
        await press(b, '#link', kind);
        await b.until('by("linkText").value.includes("p=")');
        const [, own] = await link();
        await b.ask('editor.isOwn = false; 0');
        await goTo(b, `#story=letter&note=${Math.random()}`);
        await goTo(b, `#${own}`);
        await b.expect(`${where}: an own text there and back, with its note`, await b.ask('[by("text").value, by("teacherNote").textContent]'),
            ['T64K GK ZF EZPF [own]', 'Für euch: A & B']);
        await b.ask('document.querySelector("meta[name=edsac-base]").content = "https://museum.example/edsac.html"; 0');
        await press(b, '#link', kind);
        await b.until('by("linkAlone").textContent === ""');
        await b.expect(`${where}: on the base that is set`, (await link())[0], 'https://museum.example/edsac.html');
        await b.ask('document.querySelector("meta[name=edsac-base]").content = ""; 0');
        await write(b, '#linkNote', '');
        await b.ask('by("linked").hidden = true; 0');
    });
    await goTo(b, '#story=letter&speed=50&view=exhibit');
    await goTo(b, '');
}

// A link is copied when it is made, and by its button; where the browser doesn't copy, it is ready to be copied by hand.
async function copied(b) {
    await b.choose('hello.edsac');
    await b.run(() => {
        const clipboard = { writeText: async (text) => { window.copied = text; } };
        Object.defineProperty(navigator, 'clipboard', { configurable: true, value: clipboard });
    });
    for (const button of ['#link', '#copyLink']) {
        await b.ask('window.copied = undefined; sayAt("shared"); 0');
        await press(b, button);
        await b.expect(`${button}: the link is copied`, [await b.until('by("shared").textContent !== ""', 5),
            await b.ask('[window.copied === by("linkText").value, by("shared").textContent]')], [true, [true, 'The link is copied.']]);
    }
    await b.run(() => {
        navigator.clipboard.writeText = async () => { throw new Error('not here'); };
        getSelection().removeAllRanges();
    });
    await press(b, '#copyLink');
    await b.expect('a link that is not copied is selected', [await b.until('by("shared").textContent === ""', 5),
        await b.run(() => { const { value, selectionStart: from, selectionEnd: to } = by('linkText'); return value !== '' && to - from === value.length; })],
    [true, true]);
    await b.expect('a note is as long as a link holds', await b.ask('by("linkNote").maxLength'), 300);
    await b.choose('letter.tape');
    await b.click('step');
    await press(b, '#link');
    await b.until('by("linkText").value.includes("p=")');
    const [, own] = await b.ask('by("linkText").value.split("#")');
    await b.ask('by("linked").hidden = true; delete navigator.clipboard; 0');
    await b.choose('hello.edsac');
    await goTo(b, `#${own}`);
    await b.expect('a link to the machine after one order', await b.ask('[page.shown.orders, page.program.kind]'), [1, 'tape']);
    await goTo(b, '#view=exhibit');
    await b.choose('letter.tape');
}

// A link is asked about if own work is in the box; Back brings the work of the step before, and Forward that of the step after.
async function steps(b) {
    await everywhere(b, async (language, where) => {
        await goTo(b, '#example=letter.edsac');
        await write(b, '#text', 'T64K GK ZF EZPF [mine]');
        await goTo(b, '#example=hello.edsac');
        await b.expect(
            `${where}: a link asks first`,
            await b.ask('[by("ask").hidden, by("text").value]'),
            [false, 'T64K GK ZF EZPF [mine]'],
        );
        await b.click('replace');
        await b.expect(
            `${where}: and is opened then`,
            await b.ask('by("text").value === EXAMPLES.find(({ name }) => name === "hello.edsac").text'),
            true,
        );
        await go(b);
        await b.expect(`${where}: Back brings the own work`, await b.ask('[by("ask").hidden, by("text").value, editor.isOwn]'),
            [true, 'T64K GK ZF EZPF [mine]', true]);
        await go(b, 1);
        await b.expect(`${where}: Forward asks as well`, await b.ask('by("ask").hidden'), false);
        await b.click('keep');
        await b.expect(
            `${where}: and the own work can be kept`,
            await b.ask('by("text").value'),
            'T64K GK ZF EZPF [mine]',
        );
        await reload(b);
        await b.expect(
            `${where}: a reload brings what was kept, and not the link`,
            await b.ask('by("text").value'),
            'T64K GK ZF EZPF [mine]',
        );
        await b.speak(language);
        await b.ask('editor.isOwn = false; 0');
    });
    await goTo(b, '#view=exhibit');
    await b.choose('letter.tape');
}

module.exports = { parts: { opened, made, copied, steps }, openedAtFirst };
