'use strict';
// What is seen to move: where each thing lands, that its trail stays there, and when nothing moves at all.

// The number of orders up to the next one with this letter, from some order on; a jump is an order E that jumps.
const UP_TO = `(letter, from = 0) => {
    const letterAt = ({ words, counter }) => page.machine.meaning(words[counter], page.program.small).letter;
    let shown = pictureAt(from);
    while (letterAt(shown) !== letter || (letter === 'E' && pictureAt(shown.orders + 1, shown).counter === shown.counter + 1)) {
        shown = pictureAt(shown.orders + 1, shown);
    }
    return shown.orders;
}`;

// What is on its way now: where each traveller will land, and what will be there.
function flights() {
    const stage = by('stage').getBoundingClientRect();
    return travel.playing.filter(({ effect }) => effect.target.className === 'traveller').map(({ effect }) => {
        const [x, y] = effect.getKeyframes().pop().transform.match(/-?[\d.]+(?=px)/g).map(Number);
        return { text: effect.target.textContent, x: x + stage.left, y: y + stage.top, ms: effect.getTiming().duration };
    });
}

// Whether a point is in a part of the page, which a row of the lens is named for by its place.
function isIn(x, y, part) {
    const node = typeof part === 'number' ? lens.rowOf(part) : part === 'last' ? by('paper').lastChild : by(part);
    const { left, top, right, bottom } = node.getBoundingClientRect();
    return x >= left - 2 && x <= right + 2 && y >= top - 2 && y <= bottom + 2;
}

// What is left once everything has come to rest: travellers, things that are hidden, and the ends of the trails.
async function atRest() {
    await Promise.all(travel.playing.map((one) => one.finished.catch(() => 0)));
    await new Promise((done) => { requestAnimationFrame(() => requestAnimationFrame(done)); });
    const stage = by('stage').getBoundingClientRect();
    const hidden = [...document.querySelectorAll('#lens td, #accNumber, #times, #paper span')];
    return {
        travellers: document.querySelectorAll('.traveller').length,
        hidden: hidden.filter((node) => getComputedStyle(node).opacity !== '1' || getComputedStyle(node).color === 'rgba(0, 0, 0, 0)').length,
        slid: [...by('accLamps').children].filter((lamp) => getComputedStyle(lamp).transform !== 'none').length,
        ends: [...document.querySelectorAll('#trails .head')].map((head) => {
            const [x, y] = head.getAttribute('transform').match(/-?[\d.]+(?=[ )])/g).map(Number);
            return [x + stage.left, y + stage.top];
        }),
    };
}

// Each kind of move: the letter of its order, what travels, and where that and its trail end.
const MOVES = [
    ['T', [['0', 0]], [0]],
    ['A', [['1', 'accNumber']], ['accNumber']],
    ['I', [['T', 40]], [40]],
    ['H', [['TF', 'times']], ['times']],
    ['E', [], [20]],
];

async function landings(b) {
    await b.choose('letter.tape');
    for (const [letter, travels, trails] of MOVES) {
        await movesTo(b, letter, travels, trails, 0);
    }
    await movesTo(b, 'V', undefined, ['accNumber', 'accLamps'], 0);
    await movesTo(b, 'O', [['A', 'last']], ['last'], 100);
    await shifts(b);
    await tapeAndLens(b);
}

// Steps over an order with this letter, and looks at what travels and where it lands.
async function movesTo(b, letter, travels, trails, from) {
    await b.ask(`look((${UP_TO})('${letter}', ${from})); 0`);
    await b.click('step');
    const flying = await b.run(flights);
    const places = travels || [[undefined, 'accNumber'], [undefined, 'accLamps']];
    await b.expect(`${letter}: as many things travel`, flying.length, places.length);
    const rest = await b.run(atRest);
    for (const [k, [text, part]] of places.entries()) {
        await b.expect(`${letter}: what travels`, flying[k]?.text, (said) => text === undefined || said === text);
        await b.expect(`${letter}: it lands in ${part}`, await b.run(isIn, flying[k]?.x, flying[k]?.y, part), true);
        await b.expect(`${letter}: in 650 milliseconds`, flying[k]?.ms, 650);
    }
    await b.expect(`${letter}: then nothing is on its way or hidden`, [rest.travellers, rest.hidden, rest.slid], [0, 0, 0]);
    await b.expect(`${letter}: its trails`, rest.ends.length, trails.length);
    for (const [k, part] of trails.entries()) {
        const [x, y] = rest.ends[k];
        await b.expect(`${letter}: a trail ends at ${part}`, await b.ask(`(() => { const isIn = ${isIn};
            return Array.from({ length: 31 }, (_, k) => k - 15).some((by) => isIn(${x}, ${y} + by, ${JSON.stringify(part)})); })()`), true);
    }
}

// The digits of a shift come from where they were.
async function shifts(b) {
    for (const [letter, name] of [['R', 'right'], ['L', 'left']]) {
        const at = await b.ask(`(() => { look((${UP_TO})('${letter}', ${letter === 'L' ? 0 : 60}));
            while (page.shown.acc === 0n) look((${UP_TO})('${letter}', page.shown.orders + 1)); return page.shown.orders; })()`);
        await b.expect(`an order ${letter} with something to shift`, at, (orders) => orders > 0);
        await b.click('step');
        const [seen, by] = await b.run(() => {
            const [old, shift] = [binary(page.before.acc, 71), page.moves[0].by];
            const lamps = [...document.getElementById('accLamps').children];
            const lit = lamps.filter((lamp) => lamp.className === 'on');
            const from = lit.map((lamp) => {
                const slide = lamp.getAnimations().find(({ effect }) => (effect.getKeyframes()[0].transform || '').includes('translateX'));
                const x = Number(slide.effect.getKeyframes()[0].transform.match(/-?[\d.]+/)[0]);
                return [lamps.indexOf(lamp), lamps.findIndex((one) => Math.abs(one.offsetLeft - lamp.offsetLeft - x) < 0.5)];
            });
            return [from.map(([to, source]) => source < 0 || (old[source] === '1' && to - source === shift)), shift];
        });
        await b.expect(`${letter} shifts to the ${name}`, by, (shift) => (letter === 'R' ? shift > 0 : shift < 0));
        await b.expect(`${letter}: each digit comes from where it was`, seen, (all) => all.length > 0 && all.every(Boolean));
        const rest = await b.run(atRest);
        await b.expect(`${letter}: and is in its place`, [rest.slid, rest.ends.length], [0, 1]);
    }
}

// The tape glides to its next row, and the lens slides to its new place.
async function tapeAndLens(b) {
    await b.ask(`look((${UP_TO})('I', 0)); 0`);
    await b.click('step');
    await b.expect('the tape is on its way', await b.ask('tape.at < tape.to'), true);
    const isThere = await b.until('tape.at === tape.to && tape.at === page.rows.length - page.shown.rowsLeft', 3);
    await b.expect('and comes to rest at its next row', isThere, true);
    const slid = await b.run(async () => {
        const first = lens.first, high = lens.body.rows[0].offsetHeight;
        page.peek = first + lens.places.length - 2;
        draw();
        const by = lens.first - first;
        const [slide] = lens.body.getAnimations();
        const from = Number(slide.effect.getKeyframes()[0].transform.match(/-?[\d.]+/)[0]);
        await slide.finished;
        return [by > 0, Math.abs(from - by * high) < 1, getComputedStyle(lens.body).transform, lens.places.includes(page.peek)];
    });
    await b.expect('the lens slides by as many rows as it moves', slid, [true, true, 'none', true]);
}

// What moves at all now.
const moving = `(() => [document.querySelectorAll('.traveller').length, travel.playing.length, lens.body.getAnimations().length])()`;

// Nothing moves on the way back, at speed, or in a long jump; and little is left of a flight at 5 orders a second.
async function rests(b) {
    await b.choose('letter.tape');
    await b.set('at', '48');
    await b.expect('nothing travels after a long jump', await b.ask(moving), (all) => all[0] + all[1] === 0);
    await b.click('step');
    await b.expect('an order is seen', await b.ask(moving), (all) => all[1] > 0);
    await b.click('back');
    await b.expect('nothing travels back', await b.ask(moving), (all) => all[0] + all[1] === 0);
    for (const [speed, wanted] of [['3', [0, 0]], ['2', [0, 0]], ['1', [1, 160]]]) {
        await b.set('speed', speed);
        const seen = await b.run(async () => {
            begin();
            run();
            const all = [];
            for (const since = performance.now(); performance.now() - since < 1200;) {
                await new Promise(requestAnimationFrame);
                const [one] = travel.playing;
                all.push(document.querySelectorAll('.traveller, #trails path').length > 0 ? 1 : 0, one ? one.effect.getTiming().duration : 0);
            }
            halt();
            return [Math.max(...all.filter((_, k) => k % 2 === 0)), Math.max(...all.filter((_, k) => k % 2))];
        });
        await b.expect(`what moves at speed ${speed}`, seen, wanted);
    }
    await b.set('speed', '2');
    await b.click('start');
}

// Where less motion is asked for, the trails are there at once, and nothing else moves.
async function lessMotion(b) {
    await b.choose('letter.tape');
    await b.send('Emulation.setEmulatedMedia', { features: [{ name: 'prefers-reduced-motion', value: 'reduce' }] });
    await b.run(() => {
        page.painted = [];
        tape.paint = (at) => {
            page.painted.push(at);
            TapeView.prototype.paint.call(tape, at);
        };
    });
    for (const letter of ['T', 'A', 'I', 'H', 'R', 'E']) {
        await b.ask(`look((${UP_TO})('${letter}', 0)); 0`);
        await b.click('step');
        await b.expect(`${letter}: nothing moves where less motion is asked for`, await b.ask(moving), [0, 0, 0]);
        await b.expect(`${letter}: its trail is there`, await b.ask('document.querySelectorAll("#trails .head").length > 0'), true);
        await b.expect(`${letter}: the tape is at its row at once`, await b.ask('tape.at === tape.to && page.painted.every(Number.isInteger)'), true);
    }
    const slid = await b.run(() => {
        page.peek = lens.first + lens.places.length - 2;
        draw();
        lens.appear();
        return document.getAnimations().length;
    });
    await b.ask('delete tape.paint; 0');
    await b.expect('nor does the lens slide, or its rows appear one by one', slid, 0);
    await b.send('Emulation.setEmulatedMedia', { features: [] });
    await b.click('start');
}

module.exports = { landings, rests, lessMotion };
