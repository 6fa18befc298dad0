'use strict';
// The page's words: what an order does, what the last one did, and what a refusal means, for someone who has never
// heard of the machine. The texts are in languages/*.json. They are filled in with what the compiled machine shows;
// nothing here says what the machine does next.

const LOADER = 41; // locations of the Initial Orders
const FIRST_LOADER = 31; // locations of those of May 1949; their programs begin at this one

const placesOf = (kind) => (kind === 'tape1' ? FIRST_LOADER : LOADER);

// An order as it is written for a loader: that of May 1949 has S for a short one and L for a long one.
const writtenFor = (kind, order) => (kind === 'tape1' ? order.replace(/F$/, 'S').replace(/D$/, 'L') : order);

// A language: its texts, by their keys. A key with a dot names a text of a part.
class Words {
    constructor(name, texts) {
        this.name = name;
        this.texts = texts;
    }

    has(key) {
        return typeof this.found(key) === 'string';
    }

    found(key) {
        return this.texts[key] ?? key.split('.').reduce((part, name) => part && part[name], this.texts);
    }

    // A text, with each {word} in it replaced by its value.
    say(key, values = {}) {
        return this.found(key).replace(/\{(\w+)\}/g, (whole, name) => (name in values ? values[name] : whole)).trim();
    }

    // A number as this language writes it.
    number(value) {
        return value.toLocaleString(this.name);
    }

    times(count) {
        return count <= 2 ? this.say(`times${count}`) : this.say('times', { count });
    }

    // What an order does, in a sentence or two, by what the machine says that it names.
    meaning({ letter, location, pair, isLong, shift }) {
        if (!this.has(`meaning.${letter}`)) {
            return this.say('noOrder');
        }
        const places = { place: location, first: pair, second: pair + 1 };
        return this.say(`meaning.${letter}`, {
            value: this.say(isLong ? 'longNumber' : 'number', places),
            target: this.say(isLong ? 'longTarget' : 'target', places),
            address: location,
            shift,
            times: shift ? this.times(shift) : '',
        });
    }

    // The same in a few words; or, of an order that has just come into the store, what it will do.
    brief({ letter, location, pair, isLong, shift }, part = 'brief') {
        if (!this.has(`${part}.${letter}`)) {
            return this.say('brief.none');
        }
        return this.say(`${part}.${letter}`, { at: isLong ? `${pair}, ${pair + 1}` : location, address: location, shift });
    }

    // What became different between two pictures that are one order apart. The two places of a long order are told of as
    // one. `read` says how a word, a long one and a register are read.
    changes(before, after, machine, rows, read) {
        const said = [];
        const { named, isLong, pair } = machine.meaning(before.words[before.counter], after.way.small);
        const isPair = (place) => isLong && named !== undefined && place >> 1 === pair >> 1;
        const changed = changedPlaces(before, after);
        if (changed.some(isPair) || (isPair(pair) && before.digits[pair >> 1] !== after.digits[pair >> 1])) {
            said.push(this.say('did.long', { first: pair, second: pair + 1, number: read.long(after, pair) }));
        }
        for (const place of changed.filter((one) => !isPair(one))) {
            const [old, now] = [before.words[place], after.words[place]];
            const { kind } = after.way;
            const loader = placesOf(kind);
            const own = place < loader && before.counter < loader ? 'loader'
                : isOwnOrder(before, after, place, machine) ? 'self' : undefined;
            const form = own ? (word) => writtenFor(kind, machine.order(word)) : read.word;
            said.push(this.say(`did.${own || 'word'}`, { place, old: form(old), now: form(now) }));
        }
        for (let half = 0; half < 512; half++) {
            if (before.digits[half] !== after.digits[half] && !isPair(2 * half)) {
                said.push(this.say('did.digit', { first: 2 * half, second: 2 * half + 1 }));
            }
        }
        if (before.rowsLeft !== after.rowsLeft) {
            said.push(this.say('did.row', { letter: machine.letter(rows[rows.length - before.rowsLeft]) }));
        }
        if (addedBetween(before, after) !== '') {
            const text = printedBetween(before, after);
            said.push(text ? this.say('did.printed', { text }) : this.say('did.moved'));
        }
        for (const name of ['acc', 'multiplier'].filter((one) => before[one] !== after[one])) {
            said.push(this.say(`did.${name}`, { old: read.register(before, name), now: read.register(after, name) }));
        }
        if (after.counter !== before.counter + 1 && after.counter !== before.counter) {
            said.push(this.say('did.jumped', { place: after.counter }));
        }
        return said.length ? said.join(' ') : this.say('did.nothing');
    }

    // What a refusal means, with a hint if a beginner's slip is seen in its line, and the part of the text that it is
    // about: from a character to another.
    refusal(note, text) {
        const said = note.match(/^(line|byte) (\d+): (\w+) /);
        if (!said) {
            return { meaning: this.say('tooLong'), hint: '', from: 0, to: 0 };
        }
        const [cause, key] = [said[3], `cause.${said[3]}`];
        const meaning = this.has(key) ? this.say(key) : '';
        const { from, to } = partAt(text, { unit: said[1], number: Number(said[2]), cause });
        const part = text.slice(from, to), hint = hintFor(cause, part);
        return { meaning, hint: hint ? this.say(`hint.${hint}`, { sign: part, ...nameIn(text, part) }) : '', from, to };
    }
}

// The locations whose words differ between two pictures.
function changedPlaces(before, after) {
    return [...after.words.keys()].filter((place) => before.words[place] !== after.words[place]);
}

// What was printed between two pictures, and the same on one line.
const addedBetween = (before, after) => after.way.text(before.printed, after.printed);
const printedBetween = (before, after) => addedBetween(before, after).replace(/\s/g, ' ').trim();

// Whether an order of the program changed an order near it: both words are orders of one letter that name a place, and
// only these places differ.
function isOwnOrder(before, after, place, machine) {
    const [old, now] = [before, after].map(({ words, way }) => machine.meaning(words[place], way.small));
    const isOne = old.named !== undefined && old.letter === now.letter && old.isLong === now.isLong;
    return before.counter >= placesOf(after.way.kind) && isOne && Math.abs(old.number) >= 2048;
}

// Which rows of a tape the loader reads as figures: those of an item, but its first and those that are no digit.
function figuresOf(rows, items) {
    const isFigure = new Array(rows.length).fill(false);
    for (const { first, after } of items) {
        for (let at = first + 1; at < after; at++) {
            isFigure[at] = rows[at] < 10;
        }
    }
    return isFigure;
}

// What stands beside each row of a tape.
function labelsOf(rows, letter, items) {
    const isFigure = figuresOf(rows, items);
    return Array.from(rows, (row, at) => (isFigure[at] ? String(row) : letter(row)));
}

if (typeof module !== 'undefined') {
    module.exports = { Words, writtenFor, figuresOf, labelsOf, printedBetween };
}
