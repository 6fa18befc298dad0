'use strict';
// What a visitor sees after an order, beside what the program reports of the same order: the texts of the page, and the
// pixels of its two canvases. Nothing here is computed by the page's own scripts.
const fs = require('fs');
const { spawnSync } = require('child_process');

const PROGRAM = ['crates/edsac/out/edsac', 'ready/edsac-linux-x86_64'].find((file) => fs.existsSync(file));
const LETTERS = 'PQWERTYUIOJ#SZK*.F@D!HNM&LXGABCV'; // of the 32 codes
const FIGURES = '0123456789';
const LANGUAGES = ['en', 'de'];
const STORIES = ['changes', 'disc', 'sum', 'mirror', 'fault', 'own']; // besides that of one letter
const SIZES = [[1920, 1080, false], [360, 740, true]];
const SMALL_DOT = 2; // pixels
const NEXT = [255, 143, 122], NAMED = [140, 203, 255]; // the colours of the two frames
const SPARE = [0, 22, 43, 64, 66]; // places whose dots are looked at besides that of the order that comes next

const binary = (value, digits) => BigInt(value).toString(2).padStart(digits, '0');
const signed = (word) => (word >= 65536 ? word - 131072 : word);

const answers = new Map(); // of the program: on each screen it is asked the same

function answer(words, input) {
    const asked = JSON.stringify([words, input]);
    if (!answers.has(asked)) {
        const ran = spawnSync(PROGRAM, words, { input, maxBuffer: 1 << 27 });
        answers.set(asked, { out: ran.stdout.toString('utf8'), note: ran.stderr.toString('utf8') });
    }
    return answers.get(asked);
}

// The codes of a tape's text, in which digits are the codes of their letters.
function codesOf(text) {
    const rows = [...text.replace(/\[[^\]]*\]/g, '').replace(/\s/g, '')];
    return rows.map((row) => (FIGURES.includes(row) ? FIGURES.indexOf(row) : LETTERS.indexOf(row)));
}

// The machine after some orders and before the last of them, as a session of the program shows it.
function statesAfter({ kind, text }, orders) {
    const shows = 'show 0 1023\nshow acc\nshow mult\nshow last\n';
    const moves = orders > 1 ? `go ${orders - 1}` : 'go 1\nback 1';
    const parts = answer(['step'], `${moves}\n${shows}go 1\n${shows}${kind}\n${text}`).out.split(/^(?=at )/m).slice(-2);
    return parts.map((part) => {
        const [head, ...lines] = part.split('\n');
        const [counter, done] = head.match(/\d+/g).map(Number);
        const words = lines.slice(0, 1024).map((line) => line.trim().split(/ +/));
        const valueOf = (name) => lines.find((line) => line.startsWith(`${name} `)).split(' ')[1];
        return {
            counter, done, numbers: words.map(([, number]) => Number(number)), orders: words.map(([, , order]) => order),
            acc: BigInt(valueOf('acc')), mult: BigInt(valueOf('mult')), last: valueOf('last'),
        };
    });
}

// What is punched, how many of its rows have been read, and what is on the paper after some orders.
function outsideAfter(tape, orders) {
    const read = answer(['trace', '--limit', String(orders)], tape).out.replace(/[^I]/g, '').length;
    const paper = answer(['tape', '--limit', String(orders)], tape).out;
    return { codes: codesOf(tape), read, paper: paper.replace(/\r/g, '').replace(/ +$/gm, '').trimEnd() };
}

// Ten orders of a run: of the loader, about the entry, and about the end.
function countsOf({ kind, text }) {
    const note = answer([kind === 'source' ? 'run' : 'tape'], text).note;
    const total = Math.min(Number(note.match(/after (\d+)(?!.*after)/)[1]), 100000);
    const entry = Number((note.match(/after (\d+) orders/) || answer(['check-tape'], text).out.match(/after (\d+)/) || [0, 100])[1]);
    const counts = [1, 9, 31, entry - 1, entry, entry + 1, entry + 2, Math.floor((entry + total) / 2), total - 1, total];
    return [...new Set(counts.filter((count) => count > 0 && count <= total))];
}

// What stands on the screen: texts that are seen, the rows of the lens, and the table of the store.
function seen() {
    const text = (id) => (by(id).getClientRects().length > 0 ? by(id).innerText.trim() : undefined);
    const lamps = (cell) => [...cell.children].map((lamp) => (lamp.className === 'on' ? '1' : '0')).join('');
    const rowOf = (row) => ({
        place: Number(row.cells[0].innerText), lamps: lamps(row.cells[1]), order: row.cells.length > 3 ? row.cells[2].innerText : '',
        marks: row.className.split(' '),
    });
    const table = [...by('look').rows].slice(1).map((row) => [...row.cells].map((cell) => cell.innerText));
    const here = [...by('look').querySelectorAll('[aria-current]')].map((row) => row.cells[0].innerText);
    const ids = ['orders', 'counter', 'order', 'acc', 'multiplier', 'last', 'did', 'paper'];
    return {
        texts: Object.fromEntries(ids.map((id) => [id, text(id)])), rows: [...lens.body.rows].map(rowOf), table, here,
        sentence: by('place').textContent, form: page.words.found('place'), label: by('store').getAttribute('aria-label'),
    };
}

// The texts of the registers, and the sentence on the order that comes next.
async function compareTexts(b, what, told, state, outside, language) {
    const tens = (value, digits) => binary(value, digits).replace(/^./, '$&.').replace(/\d{10}(?=\d)/g, '$& ');
    const { counter, numbers, orders, done } = state;
    const noCode = { en: 'nothing yet', de: 'noch nichts' }[language];
    const wanted = {
        orders: done.toLocaleString(language), counter: String(counter),
        order: `${orders[counter]} ${binary(numbers[counter], 17)}`, acc: tens(state.acc, 71), multiplier: tens(state.mult, 35),
        last: state.last === 'none' ? noCode : `${LETTERS[state.last]} ${binary(state.last, 5)}`, paper: outside.paper,
    };
    for (const [id, text] of Object.entries(wanted)) {
        const got = id === 'paper' ? told.texts.paper.replace(/[ \u00a0]+$/gm, '').trimEnd() : told.texts[id].replace(/\s+/g, ' ');
        await b.expect(`${what}: ${id}`, got, text);
    }
    const next = { number: (done + 1).toLocaleString(language), place: counter, order: orders[counter] };
    await b.expect(`${what}: the order that comes next`, told.sentence, told.form.replace(/\{(\w+)\}/g, (all, name) => next[name]));
}

// The rows of the lens and the table of the store: their words and what is marked.
async function compareRows(b, what, told, state, changed, language) {
    const { numbers, orders, counter } = state;
    for (const { place, lamps, order, marks } of told.rows) {
        const isPair = marks.includes('top') || marks.includes('under');
        const wanted = isPair ? [lamps, order] : [binary(numbers[place], 17), numbers[place] ? orders[place] : ''];
        await b.expect(`${what}: row ${place}`, [lamps, order], wanted);
        await b.expect(`${what}: row ${place} is marked as next`, marks.includes('here'), place === counter);
        await b.expect(`${what}: row ${place} is marked as changed`, isPair || marks.includes('new') === changed.includes(place), true);
    }
    for (const [place, ...cells] of told.table) {
        const at = Number(place), number = signed(numbers[at]);
        const fraction = (number / 65536).toLocaleString(language, { maximumFractionDigits: 5 });
        await b.expect(`${what}: place ${at} of the table`, cells,
            [orders[at], number.toLocaleString(language), fraction, binary(numbers[at], 17)]);
    }
    await b.expect(`${what}: the table marks the next order`, told.here, [String(counter)]);
    for (const place of changed.slice(0, 8)) {
        await b.expect(`${what}: ${place} is said to have changed`, [told.label, told.texts.did].every((text) => text.includes(String(place))), true);
    }
}

// The colours at the middle of the dots of some places and on the upper edge of their frames, and at the holes of the rows
// about the reader.
function pixels(places, rows) {
    const picture = (canvas) => { // all of it is read at once: each reading takes long
        const { data, width, height } = canvas.getContext('2d').getImageData(0, 0, canvas.width, canvas.height);
        return (points) => points.map((point) => {
            const [x, y] = point.map((length) => Math.floor(length * devicePixelRatio)), at = 4 * (y * width + x);
            return x >= 0 && x < width && y >= 0 && y < height ? [...data.subarray(at, at + 3)] : [0, 0, 0];
        });
    };
    const { across, gap, side, dot, high, tankWide, tankHigh } = store.plan(32);
    const corner = (place) => {
        const tank = Math.floor(place / 32), line = Math.floor((place % 32) / 2), half = place % 2 === 1 ? 0 : 18;
        return [side + (tank % across) * tankWide + half * dot, gap + Math.floor(tank / across) * tankHigh + line * high];
    };
    const dots = (place) => Array.from({ length: 17 }, (_, k) => [corner(place)[0] + (k + 0.5) * dot, corner(place)[1] + 0.5 * high]);
    const edge = (place) => Array.from({ length: 17 }, (_, k) => [corner(place)[0] + (k + 0.5) * dot, corner(place)[1] - 0.5]);
    const unit = parseFloat(getComputedStyle(document.documentElement).fontSize) / 20;
    const reader = Math.floor(by('tape').clientWidth * 0.3);
    const holes = rows.map((row) => [15, 26.5, 38, 55, 66.5].map((y) => [reader + (row + 0.5) * 22 * unit, y * unit]));
    const inStore = picture(by('store')), inTape = picture(by('tape'));
    const ofStore = (points) => places.map((place) => inStore(points(place)));
    return { dots: ofStore(dots), edges: ofStore(edge), holes: holes.map(inTape) };
}

const isNear = (one, other) => one.every((part, k) => Math.abs(part - other[k]) < 70) && Math.max(...one) > 130;
const isNaming = (order) => 'ASHVNTUCOI'.includes(order[0]);

// The dots of the store: a lit one is bright, and one of a word that has changed is nearly white. Where dots are small, frames
// cover those of the next order, of the place that it names and at the ends of the lens, and those beside them.
async function comparePixels(b, what, state, outside, changed) {
    const framed = [state.counter, Number(state.orders[state.counter].slice(1, -1)) % 1024];
    const isLarge = await b.ask(`store.plan(32).high > ${SMALL_DOT}`);
    const covered = [...framed, ...await b.ask('[lens.first, lens.first + lens.places.length - 1]')];
    const isSeen = (place) => isLarge || covered.every((one) => Math.abs(one - place) > 3);
    const places = [...new Set([...framed, ...SPARE, ...changed])].filter(isSeen);
    const rows = [-2, -1, 0, 1, 2].filter((row) => outside.codes[outside.read + row] !== undefined);
    const { dots, edges, holes } = await b.run(pixels, places, rows);
    for (const [k, place] of places.entries()) {
        const isNew = changed.includes(place);
        const lit = dots[k].map(([red, green]) => Number(isNew ? red > 190 : green > 110)).join('');
        await b.expect(`${what}: the dots of place ${place}`, lit, binary(state.numbers[place], 17));
        if (isLarge && framed.some((one) => Math.abs(one - place) <= 2)) {
            const count = (colour) => edges[k].filter((one) => isNear(one, colour)).length;
            await b.expect(`${what}: the frame of place ${place}`, [place !== framed[0] || count(NEXT) === 17,
                place === framed[0] || place !== framed[1] || !isNaming(state.orders[framed[0]]) || count(NAMED) > 5], [true, true]);
        } else if (isLarge) {
            await b.expect(`${what}: place ${place} has no frame`, edges[k].some((one) => isNear(one, NEXT) || isNear(one, NAMED)), false);
        }
    }
    for (const [k, row] of rows.entries()) {
        const found = holes[k].map((colour) => Number(Math.max(...colour) < 90)).join('');
        await b.expect(`${what}: the holes of row ${outside.read + row}`, found, binary(outside.codes[outside.read + row] ^ 16, 5));
    }
}

async function compareAt(b, name, { program, tape, orders }, language) {
    const what = `${name} after ${orders}, ${language}`;
    const [before, state] = statesAfter(program, orders);
    const outside = outsideAfter(tape, orders);
    const changed = state.numbers.flatMap((number, place) => (number === before.numbers[place] ? [] : [place]));
    await b.set('at', String(orders));
    const told = await b.run(seen);
    await compareTexts(b, what, told, state, outside, language);
    await compareRows(b, what, told, state, changed, language);
    await comparePixels(b, what, state, outside, changed);
}

// Loads the program of a story, and gives it.
function storyProgram(name) {
    by('stories').value = name;
    if (name === 'own') {
        put({ text: EXAMPLES.find((one) => one.name === 'digits.tape').text, kind: 'tape' });
    } else {
        loadStory();
    }
    return page.program;
}

// The programs of some stories on each screen.
async function compareStories(b, names) {
    await b.run(() => { by('moreBox').open = by('lookBox').open = true; });
    for (const [wide, high, isMobile] of SIZES) {
        await b.size(wide, high, isMobile);
        await b.until(`innerWidth === ${wide}`);
        for (const name of names) {
            const program = await b.run(storyProgram, name);
            const tape = program.kind === 'source' ? answer(['punch'], program.text).out : program.text;
            const counts = countsOf(program);
            for (const [at, language] of LANGUAGES.entries()) {
                await b.speak(language);
                for (const orders of counts.filter((_, k) => k % LANGUAGES.length === at)) {
                    await compareAt(b, `${wide}: ${name}`, { program, tape, orders }, language);
                }
            }
        }
    }
    await b.speak('en');
    await b.run(() => { by('moreBox').open = by('lookBox').open = false; });
    await b.unsize();
}

const screenLetter = (b) => compareStories(b, ['letter']);
const screen = (b) => compareStories(b, STORIES);

module.exports = { screenLetter, screen };
