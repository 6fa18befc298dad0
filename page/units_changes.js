'use strict';
// What a step is said to have changed, without a browser: each kind of change, once and in its words.

const LETTERS = 'PQWERTYUIOJ#SZK*.F@D!HNM&LXGABCV'; // of the 32 functions
const NAMING = 'ASHVNTUCEGIOF';
const READ = {
    word: (word) => String(word), long: (shown, pair) => `long ${shown.words[pair + 1]}`, register: (shown, name) => `${name} ${shown[name]}`,
};

// A word of the machine: a letter, an address, and whether it is long.
const wordOf = (letter, address, isLong = false) => LETTERS.indexOf(letter) * 4096 + address * 2 + (isLong ? 1 : 0);

// The machine, as far as a change asks for it.
const machine = {
    meaning: (word) => {
        const letter = LETTERS[word >> 12], location = (word >> 1) & 1023;
        return { letter, location, pair: location & ~1, isLong: word % 2 === 1, named: NAMING.includes(letter) ? location : undefined,
            number: word < 65536 ? word : word - 131072 };
    },
    order: (word) => `${LETTERS[word >> 12]}${(word >> 1) & 1023}${word % 2 ? 'D' : 'F'}`,
    letter: (row) => LETTERS[row],
};

// Two pictures, one order apart: the order, where it stands, and what it changed; the paper is a text.
function pictures([letter, address, isLong], { at = 100, kind = 'tape', words = {}, was = {}, digits = {}, ...after }) {
    const way = { kind, small: false, text: (from, to) => (after.paper || '').slice(from, to) };
    const before = { words: new Uint32Array(1024), digits: new Uint8Array(512), counter: at, rowsLeft: 9, printed: 0, acc: 5n, multiplier: 7n, way };
    before.words[at] = wordOf(letter, address, isLong);
    Object.entries(was).forEach(([place, word]) => { before.words[place] = word; });
    const shown = { ...before, words: before.words.slice(), digits: before.digits.slice(), counter: at + 1, ...after, printed: (after.paper || '').length };
    Object.entries(words).forEach(([place, word]) => { shown.words[place] = word; });
    Object.entries(digits).forEach(([half, digit]) => { shown.digits[half] = digit; });
    return [before, shown];
}

const CHANGES = [
    [['T', 33], { at: 20, was: { 33: wordOf('T', 44) }, words: { 33: wordOf('T', 64) } },
        'The loader changed one of its own orders: place 33 was T44F and is now T64F.'],
    [['T', 30], { at: 20, kind: 'tape1', was: { 30: wordOf('T', 44, true) }, words: { 30: wordOf('T', 64) } },
        'The loader changed one of its own orders: place 30 was T44L and is now T64S.'],
    [['T', 64], { at: 22, words: { 64: 9 } }, 'Place 64 was 0 and is now 9.'],
    [['T', 33], { at: 33, kind: 'tape1', was: { 33: wordOf('T', 33) }, words: { 33: wordOf('T', 34) } },
        'The program changed one of its own orders: place 33 was T33S and is now T34S.'],
    [['T', 90], { was: { 90: wordOf('O', 70) }, words: { 90: wordOf('O', 71) } },
        'The program changed one of its own orders: place 90 was O70F and is now O71F.'],
    [['T', 90], { was: { 90: 5 }, words: { 90: 6 } }, 'Place 90 was 5 and is now 6.'],
    [['T', 90], { was: { 90: wordOf('A', 70) }, words: { 90: wordOf('S', 70) } }, `Place 90 was ${wordOf('A', 70)} and is now ${wordOf('S', 70)}.`],
    [['T', 90], { was: { 90: wordOf('A', 70) }, words: { 90: wordOf('A', 70, true) } },
        `Place 90 was ${wordOf('A', 70)} and is now ${wordOf('A', 70, true)}.`],
    [['T', 91, true], { words: { 90: 3, 91: 4 }, digits: { 45: 1 } }, 'Places 90 and 91 now hold one long number: long 4.'],
    [['T', 90, true], { words: { 91: 4 } }, 'Places 90 and 91 now hold one long number: long 4.'],
    [['T', 90, true], { digits: { 45: 1 } }, 'Places 90 and 91 now hold one long number: long 0.'],
    [['T', 90], { words: { 90: 4 }, digits: { 45: 1 } }, 'Place 90 was 0 and is now 4. The digit between places 90 and 91 changed.'],
    [['I', 90], { words: { 90: 4 }, rowsLeft: 8 }, 'Place 90 was 0 and is now 4. A row of the tape was read: E.'],
    [['O', 90], { paper: 'A' }, 'The teleprinter printed A.'],
    [['T', 90], { was: { 90: 131070 }, words: { 90: 131068 } }, 'Place 90 was 131070 and is now 131068.'],
    [['O', 90], { paper: '\nA\nB\n' }, 'The teleprinter printed A B.'],
    [['O', 90], { paper: '\n' }, 'The teleprinter moved its paper or its carriage.'],
    [['A', 90], { acc: 6n }, 'The accumulator was acc 5 and is now acc 6.'],
    [['H', 90], { multiplier: 8n }, 'The multiplier register was multiplier 7 and is now multiplier 8.'],
    [['E', 64], { counter: 64 }, 'The machine jumped to place 64.'],
    [['Z', 0], { counter: 100 }, 'Nothing changed but the counter.'],
    [['X', 0], {}, 'Nothing changed but the counter.'],
];

function changes(same, words) {
    const rows = [1, 2, 3];
    for (const [order, after, wanted] of CHANGES) {
        const [before, shown] = pictures(order, after);
        same(`what ${order.join(' ')} changed: ${wanted}`, words.changes({ ...before, rowsLeft: 1 }, { ...shown, rowsLeft: shown.rowsLeft === 8 ? 0 : 1 }, machine, rows, READ), wanted);
    }
}

module.exports = { changes };
