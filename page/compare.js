'use strict';
// Compares the compiled machine with the program, picture by picture: on the tapes and sources of a folder, and on two
// hundred more that are made from a stated sequence.
//   node page/compare.js MODULE[,MODULE] PROGRAM FOLDER [NAME ..]     only these files of FOLDER, or what BESIDES names
// The name files means each file of FOLDER, and besides all of BESIDES. Two modules share what the program answers.
// Before node 24 a module of 64-bit memories needs --experimental-wasm-memory64.
const fs = require('fs');
const path = require('path');
const { Way } = require('./way.js');
const { Beside, Program } = require('./compare_beside.js');
const { compareRun, compareGoing, comparePostMortem, compareStates } = require('./compare_runs.js');
const { compareItems, compareFigures, compareTexts } = require('./compare_tapes.js');
const { compareLines, EVERY_FORM } = require('./compare_lines.js');
const { ORDERS, sequence, madeTape, madeTape1, madeSource } = require('./compare_made.js');

const KINDS = { '.tape': 'tape', '.tape1': 'tape1', '.edsac': 'source' };
const LONGEST = 262144; // bytes of a text

function compareAll(beside, name, text, furthest) {
    compareTexts(beside, name, text);
    const last = compareRun(beside, name, text, furthest, 0);
    if (last.words === undefined) {
        return;
    }
    const end = last.orders;
    const some = [1, 9, 40, 193, Math.floor(end / 3), Math.floor(end / 2), end - 1, end, end + 1].filter((count) => count > 0 && count <= furthest);
    [...new Set(some)].forEach((count) => compareRun(beside, name, text, count, 0));
    compareRun(beside, name, text, furthest, 2);
    const counts = [...new Set(some.filter((count) => count <= end))].sort((a, b) => a - b);
    if (text.kind !== 'tape1') { // the program has no session for such a tape
        compareStates(beside, name, text, counts);
    }
    const late = [0.8, 0.9, 0.95].map((share) => Math.floor(share * end)); // what is printed comes in several pieces
    compareGoing(beside, name, text, [...new Set([...counts, ...late])].sort((a, b) => a - b));
    compareItems(beside, name, text);
    if (text.kind !== 'tape1') { // the program has no post-mortem of such a tape
        const way = new Way(beside.machine, text, beside.machine.rows(text).out);
        counts.slice(-2).forEach((count) => comparePostMortem(beside, name, text, way, count));
    }
}

// What every word means, beside its text as an order.
function compareMeanings({ machine, same }) {
    for (let word = 0; word < 131072; word++) {
        const text = machine.order(word), isOrder = ORDERS.includes(text[0]), isShift = 'RL'.includes(text[0]);
        const address = Number(text.slice(1, -1) || 0);
        for (const small of [false, true]) {
            const { letter, location, pair, named, isLong, shift, number } = machine.meaning(word, small);
            const place = address % (small ? 512 : 1024);
            const wanted = [isOrder ? text[0] : '', place, place - (place % 2), isOrder && !'RLXYZ'.includes(text[0]) ? place : undefined,
                text.endsWith('D'), isShift ? 32 - Math.clz32(word & -word) : 0, word < 65536 ? word : word - 131072];
            const got = [letter, location, pair, named, isLong, shift, number];
            if (got.some((part, k) => part !== wanted[k])) {
                same(`what ${word} means`, got, wanted);
            }
        }
    }
}

// The lines of a source that is not refused, beside their places in the listing.
function compareSource({ machine, same, count }, name, text) {
    const source = { kind: 'source', text, small: false };
    const listingOf = (changed) => new TextDecoder().decode(machine.listing({ ...source, text: changed }).out);
    if (machine.rows(source).status === 0) {
        count.lines += compareLines(name, text, listingOf, machine.items(source).items, same);
    }
}

// A tape or a source of the folder.
function compareFile(beside, folder, name) {
    const kind = KINDS[path.extname(name)], text = fs.readFileSync(path.join(folder, name), 'utf8');
    compareAll(beside, name, { kind, text, small: false }, 400000);
    compareFigures(beside, name, { kind, text, small: false });
    if (kind === 'source') {
        compareSource(beside, name, text);
    }
    if (kind !== 'tape1') {
        compareAll(beside, `${name} in the small store`, { kind, text, small: true }, 20000);
    }
}

// The tapes and sources that are made from the sequence.
function compareMade(beside) {
    for (let seed = 1; seed <= 200; seed++) {
        const next = sequence(seed);
        const kind = seed % 2 ? 'tape' : 'source';
        compareAll(beside, `made ${kind} ${seed}`, { kind, text: kind === 'tape' ? madeTape(next) : madeSource(next), small: next(5) === 0 }, 3000);
    }
    for (let seed = 1; seed <= 40; seed++) {
        compareAll(beside, `made tape of May 1949 ${seed}`, { kind: 'tape1', text: madeTape1(sequence(seed)), small: false }, 3000);
    }
}

// A program that keeps a digit between two words for three hundred orders, reads it and clears it.
const DIGIT = 'T64K GK A92F R0D T90D A93F A94F U93F G68F A90D T96D T90D ZF T90K PF PF PD V1998F PD E64KPF';

// Texts that fit into the full store, and not into the small one.
function compareLarge(beside) {
    for (const small of [false, true]) {
        compareAll(beside, `a source beyond place 512, ${small}`, { kind: 'source', text: 'segment main at 600\nA main F\nZ F\nenter main\n', small }, 3000);
        compareAll(beside, `a tape beyond place 512, ${small}`, { kind: 'tape', text: 'T600K GK A@ ZF E600KPF', small }, 3000);
        compareAll(beside, `a digit between two words, ${small}`, { kind: 'tape', text: DIGIT, small }, 3000);
        compareAll(beside, `an order for place 600, ${small}`, { kind: 'tape', text: 'T64K GK A600F A601D ZF E64KPF', small }, 3000);
    }
}

// Runs that go far, and texts that are at an end of what may be.
function compareEnds(beside, folder) {
    const { machine, program, same } = beside;
    for (const name of ['endless.tape', 'squares.edsac']) {
        const kind = name.endsWith('.tape') ? 'tape' : 'source';
        const text = { kind, text: fs.readFileSync(path.join(folder, name), 'utf8'), small: false };
        const end = Math.min(machine.picture(text, 5000000).orders, 50000000);
        compareStates(beside, `${name}, far on`, text, kind === 'tape' ? [262144, 1000000, 50000000, 99999999] : [end - 200, end]);
    }
    compareAll(beside, 'a tape with an open comment', { kind: 'tape', text: 'T64K [GK', small: false }, 100);
    compareAll(beside, 'a tape of May 1949 with an open comment', { kind: 'tape1', text: 'T35S [O34S', small: false }, 100);
    compareAll(beside, 'a tape of May 1949 that is empty', { kind: 'tape1', text: '', small: false }, 100);
    compareAll(beside, 'a source with a fault after line 1000', { kind: 'source', text: `${'\n'.repeat(1499)}%\n`, small: false }, 100);
    const long = ' '.repeat(LONGEST + 1);
    compareTexts(beside, 'too long', { kind: 'tape', text: long, small: false });
    same('too long', machine.picture({ kind: 'tape', text: long, small: false }, 1).note, program(['tape'], long).note);
    for (const ending of ['stopped', 'limit', 'no order', 'no tape', 'refused']) {
        same(`some run ends with ${ending}`, beside.seen.has(ending), true);
    }
}

// What is compared besides the files.
const BESIDES = {
    meanings: compareMeanings, forms: (beside) => compareSource(beside, 'a source with every form', EVERY_FORM),
    made: compareMade, large: compareLarge, ends: compareEnds,
};

// What is compared, by the names that are given: all of it if no name is.
function namesOf(folder, asked) {
    const files = fs.readdirSync(folder).sort().filter((name) => KINDS[path.extname(name)]);
    const all = { files, besides: Object.keys(BESIDES) };
    return (asked.length ? asked : Object.keys(all)).flatMap((name) => all[name] || [name]);
}

function report({ name, count, seen, machine }) {
    const { pictures, gone, small, printed, figures, landed, lines, tried, wrong } = count;
    const endings = [...seen].map(([ending, times]) => `${ending} ${times}`).join(', ');
    const memory = machine.exports.memory.buffer.byteLength >> 20;
    console.log(`${name}: ${pictures} pictures compared with the program, ${gone} gone on to, `
        + `${small} post-mortems of the small store, ${printed} more of either, ${figures} rows with the loader, `
        + `${landed} words of items with the store, ${lines} lines with the listing, `
        + `${tried} tries, ${wrong} differences; endings ${endings}; the memory grew to ${memory} MiB`);
}

function main(modules, edsac, folder, ...asked) {
    const program = new Program(edsac);
    const all = modules.split(',').map((file) => new Beside(file, program));
    for (const name of namesOf(folder, asked)) {
        all.forEach((beside) => (BESIDES[name] || ((one, from) => compareFile(one, from, name)))(beside, folder));
        program.answers.clear(); // another name asks for something else
    }
    all.forEach(report);
    process.exit(all.some(({ count }) => count.wrong) ? 1 : 0);
}

main(...process.argv.slice(2));
