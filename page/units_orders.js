'use strict';
// The page's rules for orders, without a browser: what each does, in sentences and in a few words, what it moves, the parts of
// its item, and the copy of a tape with another word.
const { writtenFor } = require('./words.js');
const { lensFirst, lensPlaces } = require('./lens.js');
const { codePlaces } = require('./rows.js');
const { wayOf } = require('./travel.js');
const { movesOf } = require('./moves.js');
const { partsOfItem } = require('./parts.js');
const { copyOf } = require('./copy.js');
const { clatterOf } = require('./sound.js');

// What the machine says of an order: its letter, its location, whether it is long, and its shift.
const named = (letter, location = 0, isLong = false, shift = 0) => (
    { letter, location, pair: location - (location % 2), isLong, shift });

// Each order with what it does, in English and in German.
const MEANINGS = [
    [named('A', 66), 'Add the number in place 66 to the accumulator.', 'Addiere die Zahl auf Platz 66 zum Akkumulator.'],
    [
        named('A', 67, true),
        'Add the long number in places 66 and 67 to the accumulator.',
        'Addiere die lange Zahl auf den Plätzen 66 und 67 zum Akkumulator.',
    ],
    [named('S', 5), 'Take the number in place 5 away from the accumulator.', 'Zieh die Zahl auf Platz 5 vom Akkumulator ab.'],
    [
        named('H', 5),
        'Copy the number in place 5 into the multiplier register.',
        'Kopiere die Zahl auf Platz 5 in das Multiplikatorregister.',
    ],
    [named('V', 5), 'Multiply the number in place 5 by the multiplier register, and add the result to the accumulator.',
        'Multipliziere die Zahl auf Platz 5 mit dem Multiplikatorregister, und addiere das Ergebnis zum Akkumulator.'],
    [named('N', 5), 'Multiply the number in place 5 by the multiplier register, and take the result away from the accumulator.',
        'Multipliziere die Zahl auf Platz 5 mit dem Multiplikatorregister, und zieh das Ergebnis vom Akkumulator ab.'],
    [
        named('T', 5),
        "Put the accumulator's number into place 5, then make the accumulator 0.",
        'Bring die Zahl des Akkumulators auf Platz 5, dann setze den Akkumulator auf 0.',
    ],
    [
        named('U', 4, true),
        "Copy the accumulator's number into places 4 and 5. The accumulator keeps it.",
        'Kopiere die Zahl des Akkumulators auf die Plätze 4 und 5. Der Akkumulator behält sie.',
    ],
    [named('C', 5), 'Look at the number in place 5 and at the multiplier register: where both have a 1, add that 1 to the accumulator.',
        'Vergleiche die Zahl auf Platz 5 mit dem Multiplikatorregister: Wo beide eine 1 haben, addiere diese 1 zum Akkumulator.'],
    [
        named('R', 0, true, 1),
        "Move the accumulator's digits 1 to the right: this halves its number once.",
        'Schieb die Ziffern des Akkumulators um 1 nach rechts: Das halbiert seine Zahl einmal.',
    ],
    [
        named('L', 1, false, 2),
        "Move the accumulator's digits 2 to the left: this doubles its number twice.",
        'Schieb die Ziffern des Akkumulators um 2 nach links: Das verdoppelt seine Zahl zweimal.',
    ],
    [
        named('L', 0, false, 13),
        "Move the accumulator's digits 13 to the left: this doubles its number 13 times.",
        'Schieb die Ziffern des Akkumulators um 13 nach links: Das verdoppelt seine Zahl 13-mal.',
    ],
    [
        named('R', 0, false, 15),
        "Move the accumulator's digits 15 to the right: this halves its number 15 times.",
        'Schieb die Ziffern des Akkumulators um 15 nach rechts: Das halbiert seine Zahl 15-mal.',
    ],
    [
        named('E', 64),
        'If the accumulator is 0 or more, go to place 64. If it is below 0, just go on.',
        'Ist der Akkumulator 0 oder mehr, geh zu Platz 64. Ist er unter 0, mach einfach weiter.',
    ],
    [
        named('G', 64),
        'If the accumulator is below 0, go to place 64. If it is 0 or more, just go on.',
        'Ist der Akkumulator unter 0, geh zu Platz 64. Ist er 0 oder mehr, mach einfach weiter.',
    ],
    [
        named('I', 5),
        'Read the next row of the tape, and put its number into place 5.',
        'Lies die nächste Reihe des Lochstreifens, und bring ihre Zahl auf Platz 5.',
    ],
    [
        named('O', 5),
        'Print the letter or figure whose code is in place 5.',
        'Druck das Zeichen, dessen Code auf Platz 5 steht.',
    ],
    [
        named('F', 5),
        'Put the code of what was printed last into place 5, so that it can be checked.',
        'Bring den Code des zuletzt gedruckten Zeichens auf Platz 5, damit man ihn prüfen kann.',
    ],
    [named('X'), 'Do nothing, and go on.', 'Tu nichts, und mach weiter.'],
    [named('Y'), 'Round the number in the accumulator.', 'Runde die Zahl im Akkumulator.'],
    [named('Z'), 'Stop, and ring the bell.', 'Halt an, und läute die Glocke.'],
    [
        named('', 5),
        'This is a number and no order. The machine can go no further here.',
        'Das ist eine Zahl und kein Befehl. Hier geht es für die Maschine nicht weiter.',
    ],
];

function meanings(same, languages) {
    for (const [order, english, german] of MEANINGS) {
        same(`${order.letter} ${order.location} in English`, languages.en.meaning(order), english);
        same(`${order.letter} ${order.location} in German`, languages.de.meaning(order), german);
    }
    same(
        'orders as they are written for either loader',
        ['TF', 'T40D', 'FF', 'D3F'].flatMap((order) => ['tape', 'tape1'].map((kind) => writtenFor(kind, order))),
        ['TF', 'TS', 'T40D', 'T40L', 'FF', 'FS', 'D3F', 'D3S'],
    );
    same(
        'orders in a few words',
        [named('A', 66), named('A', 66, true), named('O', 66), named('E', 64), named('Z'), named('', 5)].map((order) => languages.en.brief(order)),
        ['add 66', 'add 66, 67', 'print the sign in 66', 'if 0 or more, go to 64', 'stop', 'no order'],
    );
}

// The rows of the lens: which places they have, and which of them are codes.
function lens(same) {
    same(
        'the lens moves only if it has to',
        [lensFirst(63, 66, 8, 1024), lensFirst(63, 69, 8, 1024), lensFirst(63, 20, 8, 1024), lensFirst(0, 1023, 8, 1024), lensFirst(5, 0, 8, 1024)],
        [63, 68, 19, 1016, 0],
    );
    same(
        'and its last two rows have what is far away',
        [[], [25], [64, 22, 64], [64, 2], [25, 64]].map((others) => lensPlaces(20, 6, others).slice(3)),
        [[23, 24, 25], [23, 24, 25], [23, 24, 64], [23, 2, 64], [23, 25, 64]],
    );
    // Words of a tape that prints AB, as the machine reports them: O4, O5, Z, 5, A, B.
    const six = [named('O', 4), named('O', 5), named('Z'), named('P', 2), named('A'), named('B')].map((order, k) => (
        { ...order, named: 'OAB'.includes(order.letter) ? order.location : undefined, number: k === 3 ? 5 : 30000 }));
    same('codes to print', [...codePlaces([0, 1, 2, 3, 4, 5], 0, (word) => six[word])].sort(), [4, 5]);
    same('a stop beside a code is no code', [...codePlaces([0, 2, 2, 4], 0, (word) => ({ ...six[word], named: word ? undefined : 3 }))], [3]);
}

// What each kind of order moves, from one picture to the next.
const MOVED = [
    [named('A', 66), {}, ['added from 66']],
    [named('A', 67, true), {}, ['added long from 66']],
    [named('S', 5), {}, ['added from 5']],
    [named('H', 67, true), {}, ['taken long from 66']],
    [named('V', 5), {}, ['added from 5', 'multiplied']],
    [named('N', 5), {}, ['added from 5', 'multiplied']],
    [named('C', 5), {}, ['added from 5', 'multiplied']],
    [named('T', 7), {}, ['stored to 7']],
    [named('U', 6, true), {}, ['stored long to 6']],
    [named('I', 40, true), { rowsLeft: 8 }, ['read K to 40']],
    [named('I', 40), {}, []],
    [named('O', 66), { printed: 'A' }, ['printed A from 66']],
    [named('O', 66), { printed: '' }, []],
    [named('R', 0, false, 15), {}, ['shifted by 15']],
    [named('L', 0, false, 3), {}, ['shifted by -3']],
    [named('E', 64), { counter: 64 }, ['jumped from 10 to 64']],
    [named('E', 64), {}, []],
    [named('X', 0), {}, []],
];

function moves(same) {
    for (const [order, after, wanted] of MOVED) {
        const machine = { meaning: () => ({ ...order, named: 'ASHVNTUCIOE'.includes(order.letter) ? order.location : undefined }) };
        const way = { small: false, text: () => after.printed || '' };
        const before = { words: [], counter: 10, rowsLeft: 9, way };
        const moves = movesOf(before, { counter: 11, rowsLeft: 9, way, ...after }, machine, (picture, place, isLong) => (isLong ? 'long' : ''), 'K');
        const said = moves.map(({ kind, text, from, to, by }) => [kind, text, from !== undefined && `from ${from}`,
            to !== undefined && `to ${to}`, by !== undefined && `by ${by}`].filter(Boolean).join(' '));
        same(`what ${order.letter} ${order.location} moves`, said, wanted);
    }
    same('what clatters', [[1, 9, 2, 8], [1, 9, 1, 8], [1, 9, 1, 9]].map(([printed, rowsLeft, after, left]) => (
        clatterOf({ printed, rowsLeft }, { printed: after, rowsLeft: left }) || 'nothing')), ['printer', 'reader', 'nothing']);
    same('a way has its ends', [0, 12].map((k) => wayOf([1, 2], [30, 40], 0.2)[k]), [[1, 2], [30, 40]]);
    same('and its middle, aside if it bends', [0, 0.5].map((bend) => wayOf([0, 0], [40, 20], bend)[6]), [[20, 10], [15, 20]]);
}

function items(same) {
    same('the parts of items', ['O2@', 'AF', 'T64K', 'GK', 'A12D', 'R1S'].map((item) => partsOfItem([...item], { first: 0, after: item.length })
        .map(({ key, sign, read }) => `${key} ${sign} ${read}`).join(', ')), [
        'letter O 1, digits 2 2, theta @ 3', 'letter A 1, short F 2', 'letter T 1, digits 64 3, other K 4', 'letter G 1, other K 2',
        'letter A 1, digits 12 3, long D 4', 'letter R 1, digits 1 2, short S 3']);

    // T64K GK O2@ ZF AF EZPF, with a row of data after it.
    const labels = [...'T64KGKO2@ZFAFEZPFB'];
    const item = (first, after, location) => ({ first, after, location });
    const items = [item(0, 4), item(4, 6), item(6, 9, 64), item(9, 11, 65), item(11, 13, 66), item(13, 15), item(15, 17)];
    same('a copy of a tape with another word', [['tape', 66, 'BF'], ['tape', 70, 'CF'], ['tape1', 64, 'O3S'], ['tape1', 70, 'CS']]
        .map((change) => copyOf(labels, items, ...change)), [
        'T64K GK O2@ ZF BF EZ PF B', 'T64K GK O2@ ZF AF T70KCF EZ PF B', 'T64K GK O3S ZF AF EZ PF B', undefined]);
    const twice = [item(0, 2, 64), item(2, 4, 64), item(4, 6), item(6, 8)];
    same('of two items for a place, the copy changes the last', copyOf([...'AFBFEZPF'], twice, 'tape', 64, 'CF'), 'AF CF EZ PF');
    same('a tape without an entry has no place for another word', copyOf(labels, items.slice(0, 5), 'tape', 70, 'CF'), undefined);
}

// Each order has a sentence in each language, and so has each cause of the manual.
function sentences(same, languages) {
    for (const [name, words] of Object.entries(languages)) {
        for (const letter of 'ASHVNTUCRLEGIOFXYZ') {
            same(`${name}: ${letter}`, /\{|undefined/.test(words.meaning(named(letter, 5))), false);
            same(`${name}: ${letter} in a few words`, /\{|undefined/.test(words.brief(named(letter, 5))), false);
            same(`${name}: what ${letter} will do`, /\{|undefined|no order/.test(words.brief(named(letter, 5), 'later')), false);
        }
        for (const cause of ['T1', 'T2', ...Array.from({ length: 17 }, (_, k) => `S${k + 1}`)]) {
            same(`${name}: ${cause}`, words.has(`cause.${cause}`), true);
        }
    }
}

function orders(same, languages) {
    meanings(same, languages);
    lens(same);
    moves(same);
    items(same);
    sentences(same, languages);
}

module.exports = { orders };
