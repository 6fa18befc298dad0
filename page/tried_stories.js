'use strict';
// The stories to their ends: what each says while it is true, what it prints, and how long it takes.
const { pause } = require('./browser.js');
const { hasten } = require('./hasten.js');

const SQUARES = [1, 4, 9, 16, 25, 36, 49, 64, 81].map((square) => String(square).padStart(2, '0')).join('\n');

// For each sentence of a story, by the first part of its key or by all of it: whether it is true of the machine that is
// shown beside it.
const TRUE_OF = {
    'told.why': ({ orders, isDark }) => orders === 0 && isDark,
    aim: ({ orders, isDark }) => orders === 0 && isDark,
    'told.loader': ({ orders, isDark }) => orders === 0 && !isDark,
    'told.loader1': ({ orders, isDark }) => orders === 0 && !isDark,
    'told.prepares': ({ orders }) => orders > 0 && orders < 12,
    'told.enter': ({ isOut, isOn, orders, entry }) => isOut && isOn && orders === entry,
    'told.program': ({ isOut, isOn, orders, entry }) => isOut && isOn && orders === entry,
    'told.on': ({ isOut, isOn }) => !isOut && isOn,
    'told.again': ({ isOut, isOn }) => !isOut && isOn,
    'told.reads': ({ isOut, isOn }) => !isOut && isOn,
    'told.printed': ({ isOut, printed, text }) => isOut && printed !== '' && text.includes(printed),
    'told.order': ({ isOut, isOne }) => isOut && isOne,
    'told.changed': ({ isOut, isOne }) => isOut && isOne,
    'told.fast': ({ isOut, isOn }) => isOut && isOn,
    'fault.before': ({ isResting, rowsRead }) => isResting && rowsRead === 4,
    'fault.read': ({ rowsRead }) => rowsRead === 6,
    'fault.made': ({ counter, rowsRead }) => counter === 20 && rowsRead === 6,
    'fault.lost': ({ word22 }) => word22 === 0,
    'fault.still': ({ ending }) => ending === 'no order',
    'fault.check': ({ ending }) => ending === 'no order',
    proved: ({ ending }) => ending === 'stopped',
    proof: ({ ending }) => ending === 'stopped',
    'told.end': ({ ending }) => ending === 'stopped',
    'told.endless': ({ isOn }) => isOn,
    'told.still': ({ ending }) => !['stopped', 'limit'].includes(ending),
    told: ({ isResting }) => isResting, // of an item: the loader waits for the next one
};

// Notes each sentence of a story with what is shown beside it.
function hear() {
    page.heard = [];
    const { say } = Tour.prototype;
    if (say.name === 'hears') {
        return;
    }
    Tour.prototype.say = function hears(key, values) {
        say.call(this, key, values);
        const { shown, before, program } = page;
        page.entry = page.entry ?? entryAfter(0);
        page.heard.push({
            key, text: by('story').textContent, orders: shown.orders, counter: shown.counter, ending: shown.ending,
            isDark: getComputedStyle(by('store')).visibility === 'hidden', isOn: shown.ending === 'limit', entry: page.entry,
            isOut: shown.counter >= placesOf(program.kind), isResting: shown.counter === WAITS[program.kind],
            isOne: isBeside() && shown.orders - before.orders === 1, printed: isBeside() ? printedBetween(before, shown) : '',
            rowsRead: page.rows.length - shown.rowsLeft, word22: shown.words[22],
            isAway: /^told\.(landed|stored)$/.test(key) && !lens.places.includes(this.place), // its word isn't in the rows
            isCut: by('now').scrollHeight > by('now').clientHeight + 1 || /\{\w+\}|undefined/.test(by('story').textContent),
        });
    };
}

// Plays a story to its end, each sentence checked against what is shown.
async function play(b, name) {
    await b.ask('page.heard = []; page.entry = undefined; 0');
    await b.click('show');
    await b.expect(`the story ${name} comes to its end`, await b.until('page.tour === undefined && !by("invite").hidden'), true);
    const heard = await b.ask('page.heard');
    const wrong = heard.filter((one) => !(TRUE_OF[one.key] || TRUE_OF[one.key.split('.')[0]])(one));
    await b.expect(`the story ${name} says nothing that is over`, wrong.map(({ key, counter, orders }) => [key, counter, orders]), []);
    await b.expect(`the story ${name} is read whole`, heard.filter(({ isCut }) => isCut).map(({ text }) => text), []);
    await b.expect(`the story ${name} shows each word of which it speaks`, heard.filter(({ isAway }) => isAway).map(({ text }) => text), []);
    return heard;
}

async function stories(b) {
    await b.size(1280, 720);
    await b.run(hasten, 0.01);
    await b.run(hear);
    const printed = { letter: 'A', name: 'ADA', changes: 'HELLO', sum: '1981', first: SQUARES, mirror: 'EDSAC', fault: '' };
    const names = await b.ask('STORIES.map((story) => story.name)');
    await b.expect('the stories', names, ['letter', 'name', 'changes', 'disc', 'sum', 'first', 'mirror', 'fault', 'own']);
    for (const name of names) {
        if (name === 'own') {
            await b.choose('digits.tape');
        } else {
            await b.set('stories', name);
        }
        if (name === 'name') {
            await b.set('name', 'Ada');
        }
        await play(b, name);
        await b.expect(`the story ${name} ends`, await b.ask('page.shown.ending'), name === 'fault' ? 'no order' : 'stopped');
        if (name in printed) {
            await b.expect(`the story ${name} prints`, (await b.text('paper')).trim(), printed[name]);
        }
        const seconds = Math.round(await b.ask('page.toured.waited'));
        console.log(`  the story ${name}: ${seconds} seconds`);
        await b.expect(`the story ${name} takes at most two minutes`, seconds, (all) => all > 20 && all <= 120);
    }
    for (const [text, ending] of [['T64K GK E@ EZPF', 'told.endless'], ['T64K GK PF EZPF', 'told.still'], ['E8KPF', 'told.still']]) {
        await b.click('isTape');
        await b.type(text);
        const heard = await play(b, text);
        await b.expect(`a story of ${text} ends`, heard.pop().key, ending);
    }
    await b.ask('editor.isOwn = false; 0');
    await b.run(hasten, 1);
    await b.set('stories', 'letter');
    await b.unsize();
}

// What three stories say and no other: that of May 1949, that of two numbers, and that of the faulty tape.
const TOLD = {
    first: ['31 orders appear in the store', 'It is ready. Now it reads the tape', 'T74S comes first. It tells the loader that 73 is the place of the last word.',
        'O61S was read from the tape, and went into place 32. Later it will print the sign in place 61.', 'This is proved: with this tape'],
    sum: ['Watch the loader read A@: it takes 23 orders', 'A@ was read from the tape, and became A56F in place 56. Later it will add the number in place 56.',
        'G70F was read from the tape, and went into place 57. Later it will lead to place 70', 'This is proved: for any two numbers'],
    fault: ['Now comes row 6,', 'Row 6 is read: a * and not a K.', 'the order E30F. Out of the * it has made E31F', 'its own order in place 22',
        'names the row: "row 5: N2 bad row". It counts from 0, so it means row 6.', 'Here the machine stands still.'],
};

async function storiesSaid(b) {
    await b.run(hear);
    await b.run(hasten, 0.01);
    for (const [name, sentences] of Object.entries(TOLD)) {
        await b.set('stories', name);
        const heard = (await play(b, name)).map(({ text }) => text);
        await b.expect(`the story ${name} says`, sentences.filter((one) => !heard.some((text) => text.includes(one))), []);
        const watched = new Set(heard.filter((text) => text.startsWith('Watch the loader read')));
        await b.expect(`the story ${name} knows how long it takes`, await b.ask('page.toured.waited'), (seconds) => seconds > 20 && seconds <= 120);
        await b.expect(`the story ${name} shows one item order by order, or none`, watched.size, name === 'sum' ? 1 : 0);
        await pause(600); // a second press at once would be the same wish
    }
    await b.run(hasten, 1);
    await b.set('stories', 'letter');
}

// At the end of its story all of the disc is seen, on screens and on a telephone.
async function wholeDisc(b) {
    await b.set('stories', 'disc');
    for (const [wide, high] of [[1280, 720], [1366, 768], [1920, 1080], [1080, 1920], [360, 740]]) {
        await b.size(wide, high);
        await b.ask('new Promise((done) => requestAnimationFrame(() => setTimeout(done, 100)))');
        await b.ask('begin(); look(100000); 0');
        await b.expect(`the disc at ${wide} x ${high}`, await b.run(() => {
            const box = by('paper').getBoundingClientRect(), range = document.createRange();
            range.selectNodeContents(by('paper'));
            const lines = [...range.getClientRects()].filter(({ width }) => width > 1);
            const tops = new Set(lines.map(({ top }) => Math.round(top)));
            const isIn = lines.every(({ left, right, top, bottom }) => (
                left >= box.left && right <= box.right && top >= box.top - 1 && bottom <= box.bottom + 1));
            return [by('paper').textContent.trim().split('\n').map((line) => line.length), tops.size, isIn];
        }), [Array(19).fill(39), 19, true]);
    }
    await b.unsize();
    await b.set('stories', 'letter');
}

// The row that the story of the faulty tape names is the one at which the machine parts from the tape as it was meant.
async function faultyTape(b) {
    await b.set('stories', 'fault');
    const parts = await b.run(() => {
        const meant = EXAMPLES.find(({ name }) => name === 'letter.tape');
        const way = new Way(page.machine, { ...meant, small: false }, page.machine.rows(meant).out);
        const isSame = (one, two) => one.words.every((word, place) => word === two.words[place]) && one.counter === two.counter;
        let shown = page.way.first, other = way.first;
        const made = [];
        for (let isApart = false; shown.ending === 'limit' && made.length < 2;) {
            [shown, other] = [page.way.at(shown.orders + 1, shown), way.at(other.orders + 1, other)];
            if (!isApart && !isSame(shown, other)) {
                isApart = true;
                made.push(page.rows.length - shown.rowsLeft);
            } else if (isApart && shown.counter === 20) {
                made.push([other, shown].map(({ words }) => page.machine.order(words[20])).join());
            }
        }
        return [made, faultyRow() + 1];
    });
    await b.expect('the machines part at the row that the check names', parts, [[6, 'E30F,E31F'], 6]);
    await b.set('stories', 'letter');
}

const FIRST = [
    '41 orders appear',
    'In 1949 the EDSAC was one of the first computers',
    'T64K tells the loader where the next words go: to place 64',
    'GK tells the loader: this is where the program begins. @ on the tape now means 64',
    'O2@ was read from the tape, and became O66F in place 64. Later it will print the sign in place 66.',
    'ZF was read from the tape, and went into place 65. Later it will stop the machine.',
    'AF was read from the tape, and went into place 66. There it is the code of A, to be printed.',
    'The teleprinter prints A.',
    'Now it is your turn',
];

// What the first story says, and its buttons.
async function storyParts(b) {
    await b.run(hear);
    await b.set('stories', 'letter');
    await b.ask('page.hurry = 0.02; 0');
    await b.click('show');
    await b.until('page.tour === undefined');
    const heard = await b.ask('page.heard.map(({ text }) => text)');
    for (const said of FIRST) {
        await b.expect(`the first story says: ${said}`, heard.some((one) => one.includes(said)), true);
    }
    await b.click('inviteNext');
    await b.expect('the next story', await b.ask('[by("stories").value, page.tour !== undefined]'), ['name', true]);
    await b.ask('page.hurry = 1; 0');
    await b.click('show');
    await b.expect('stopped by its button', await b.ask('page.tour === undefined'), true);
    await pause(600); // a second press at once would be the same wish
    await b.set('stories', 'letter');
    await b.click('show');
    await b.click('skip');
    await b.expect(
        'Skip leaves the aim',
        await b.until('by("story").textContent.includes("41 orders appear")', 3),
        true,
    );
    await b.click('skip');
    await b.expect('Skip leaves the loader', await b.until('by("story").textContent.includes("T64K")', 3), true);
    await b.click('skip');
    await b.expect('Skip leaves the tape', await b.until('page.shown.counter >= 64', 3), true);
    await b.click('skip');
    await b.expect('and the program', await b.until('page.tour === undefined', 3), true);
    await b.click('inviteBack');
    await b.expect('Step back', await b.text('orders'), '192');
    await b.click('step');
    await b.expect(
        'at its end, letters to choose from',
        await b.ask('[by("keyboard").hidden, by("letters").children.length]'),
        [false, 26],
    );
    await b.ask('by("letters").children[10].click(); 0');
    await b.expect('a sentence about its tape', await b.until('by("story").textContent.includes("The tape holds K now")', 3), true);
    await b.expect('and one is printed', await b.until('page.tour === undefined && by("paper").textContent === "K"'), true);
}

module.exports = { stories, storyParts, storiesSaid, wholeDisc, faultyTape };
