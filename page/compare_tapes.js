'use strict';
// Compares what the machine makes of a text with the program's answers: its rows, its letters, its listing, its items, and
// which of its rows are figures.
const { Way } = require('./way.js');
const { figuresOf } = require('./words.js');
const { storeOf } = require('./compare_beside.js');

// The items of a tape, beside what the program's check says of it, and beside the store at its entry: the last word that was
// placed at a location stands there, and the rows of the items follow one another.
function compareItems(beside, name, text) {
    const { machine, program, same } = beside;
    const isFirst = text.kind === 'tape1';
    const tape = text.kind === 'source' ? new TextDecoder().decode(machine.punched(text).out) : text.text;
    const told = program(isFirst ? ['check-tape1'] : ['check-tape', ...storeOf(text.small)], tape);
    const found = machine.items(text);
    same(`${name}: status of the items`, found.status, told.status);
    same(`${name}: note of the items`, found.note, told.note);
    same(`${name}: blocks in use after the items`, Number(machine.exports.blocks()), 0);
    same(`${name}: items follow`, found.items.every(({ first }, k) => first === (k ? found.items[k - 1].after : 0)), true);
    const [, entry, orders, rows] = told.out.match(/^entry (\d+) after (\d+) orders, (\d+) rows/) || [];
    if (entry === undefined) {
        return;
    }
    const way = new Way(machine, text, machine.rows(text).out);
    const shown = way.at(Number(orders));
    same(`${name}: rows of the items`, found.items.at(-1).after, Number(rows));
    same(`${name}: counter at the entry`, shown.counter, Number(entry));
    same(`${name}: rows left at the entry`, shown.rowsLeft, way.rows.length - Number(rows));
    same(`${name}: only the entry item places nothing there`, found.items.at(-1).location, isFirst ? Number(31 + found.items.length - 1) : undefined);
    const placed = new Map(found.items.map(({ location, word }) => [location, word]));
    placed.delete(undefined);
    const first = isFirst ? 31 : 44;
    for (let location = first; location < 1024; location++) {
        same(`${name}: place ${location} at the entry`, shown.words[location], placed.get(location) || 0);
    }
    beside.count.landed += placed.size;
}

// Which rows the loader itself reads as digits, by its order at 9, or at 11 in May 1949, beside those that the page labels
// as figures.
function compareFigures(beside, name, text) {
    const { machine, same } = beside;
    const rows = machine.rows(text).out;
    const isFirst = text.kind === 'tape1', places = isFirst ? 31 : 41, reads = isFirst ? 11 : 9;
    const { status, items } = machine.items(text);
    const labelled = figuresOf(rows, items);
    const end = status === 0 ? rows.length : items.length ? items.at(-1).after : 0; // beyond a fault no row is labelled
    const way = new Way(machine, text, rows); // each picture from Start would make the tape of a source anew
    let before = way.first;
    for (let orders = 1; orders < 1500 && before.words && before.ending === 'limit' && before.counter < places; orders++) {
        const shown = way.at(orders, before);
        if (shown.rowsLeft < before.rowsLeft) {
            const at = rows.length - before.rowsLeft;
            if (at >= end) {
                return;
            }
            same(`${name}: row ${at} is a figure`, labelled[at], before.counter === reads && rows[at] < 10);
            beside.count.figures++;
        }
        before = shown;
    }
}

// The rows of the tape, and the listing.
function compareTexts(beside, name, text) {
    const { machine, program, same } = beside;
    const rows = machine.rows(text);
    if (text.kind !== 'source') {
        const told = program([text.kind, '--limit', '1'], text.text);
        const isRefused = [3, 11].includes(told.status);
        same(`${name}: rows`, rows.status, isRefused ? told.status : 0);
        same(`${name}: note of the rows`, rows.note, isRefused ? told.note : '');
        same(
            `${name}: letters`,
            [...rows.out].map((code) => machine.letter(code)).join(''),
            isRefused ? '' : lettersOf(text.text),
        );
        return;
    }
    const punched = program(['punch', ...storeOf(text.small)], text.text);
    same(`${name}: rows`, rows.status, punched.status);
    same(`${name}: note of the rows`, rows.note, punched.note);
    same(
        `${name}: punched`,
        [...rows.out].join(' '),
        [...machine.rows({ kind: 'tape', text: punched.out }).out].join(' '),
    );
    const tape = machine.punched(text);
    same(`${name}: the text of its tape`, new TextDecoder().decode(tape.out), punched.out);
    same(`${name}: note of its tape`, `${tape.status} ${tape.note}`, `${punched.status} ${punched.note}`);
    const listed = program(['listing', ...storeOf(text.small)], text.text);
    const listing = machine.listing(text);
    same(`${name}: listing`, new TextDecoder().decode(listing.out), listed.out);
    same(`${name}: note of the listing`, `${listing.status} ${listing.note}`, `${listed.status} ${listed.note}`);
}

// The letters that a tape's text spells: digits stand for the letters of the same codes.
const lettersOf = (text) => text.replace(/\[[^\]]*\]/g, '').replace(/\s/g, '').replace(/\d/g, (digit) => 'PQWERTYUIO'[digit]);

module.exports = { compareItems, compareFigures, compareTexts };
