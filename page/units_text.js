'use strict';
// The page's rules for texts, without a browser: the slips of beginners and the part of a text that each is in.
const { signAt, lineAt, partAt, hintFor, signsOf, slipOf } = require('./hints.js');
const { leftFrom } = require('./endings.js');
const { askedOf, noteOf, linkBase, linkOf } = require('./address.js');
const { wordsOf } = require('./kept.js');
const { titleOf } = require('./printing.js');
const { stripOf } = require('./strip.js');

// The hint for each slip: the cause that the machine reports, the line or the sign, and the hint.
const SLIPS = [
    ['S3', 'a 5 F', 'lower'], ['S3', 'z F', 'lower'], ['S3', 'o letter F', 'lower'], ['S3', 'A 5', 'length'],
    ['S3', 'next: A one', 'length'], ['S3', 'text "HELLO YOU"', 'blank'], ['S1', 'A 5 F // five', 'comment'], ['S1', '[five]', 'comment'],
    ['S3', 'letter A F', 'colon'], ['S3', 'a A F', 'colon'], ['S3', '  mark * F ; the mark', 'colon'], ['S3', 'one word 1', 'colon'],
    ['S3', 'next A count+1 D', 'colon'], ['S3', 'said text "HELLO"', 'colon'], ['S3', '_x P F', 'colon'], ['S3', 'segment A F', undefined],
    ['S3', '0 letter F', 'zero'], ['S3', 'next: 05F', 'zero'], ['S3', 'A 1O F', 'oh'], ['S3', 'word 1O', 'oh'], ['S3', 'A one+1O F', 'oh'],
    ['S3', 'A O F', 'oh'], ['S3', 'word 5 ; O', undefined], ['S3', 'text "O', undefined],
    ['S7', 'A nowhere F', 'word'], ['S16', '', 'enter'], ['S9', 'A 5 F', 'segment'], ['S4', 'word 999999', undefined],
    ['S1', '“', 'quote'], ['S1', '«', 'quote'], ['S1', '\u00a0', 'noBreak'], ['S1', '\u200b', 'unseen'], ['S1', '–', 'dash'], ['S1', '\u2212', 'dash'], ['S1', 'ü', 'sign'],
    ['T1', 'a', 'lowerTape'], ['T1', '?', undefined], ['T1', ';', 'semicolon'], ['T1', '\u00a0', 'noBreak'], ['T1', '”', 'quote'],
    ['T1', 'ü', undefined],
];

function hints(same, languages) {
    for (const [cause, part, hint] of SLIPS) {
        same(`the hint for ${cause} ${part}`, hintFor(cause, part), hint);
        for (const words of Object.values(languages).filter(() => hint)) {
            same(`${words.name}: the hint ${hint}`, words.has(`hint.${hint}`), true);
        }
    }
    parts(same);
    same('what a hint says', ['line 3: S3 x', 'line 2: S1 x', 'line 9: S16 x'].map((note) => (
        languages.en.refusal(note, 'segment own\ntext “A”\nletter A F')).hint), [
        'Is letter a label? A label has a colon: letter:', '“ is a curved quote. Write the straight one of the keyboard: "',
        'Write a last line, such as: enter own',
    ]);
    same('a text that is too long', languages.en.refusal('input too long', 'A').meaning, 'The text is too long for the machine.');
    slips(same);
}

// The part of a text that a refusal is about.
function parts(same) {
    for (const [text, byte, from, to] of [
        ['T64K ?', 5, 5, 6], ['AÄ', 1, 1, 2], ['A\u{1F469}\u200D\u{1F52C}B', 1, 1, 6], ['ÄÄ\u{1F600}', 4, 2, 4], ['A', 1, 1, 1],
    ]) {
        same(`the sign at byte ${byte} of ${text}`, signAt(text, byte), { from, to });
    }
    same('a line of a text', lineAt('one\ntwo\nthree', 2), { from: 4, to: 7 });
    same('the first line of a text', lineAt('one\ntwo', 1), { from: 0, to: 3 });
    same('a line after the last one', lineAt('one', 5), { from: 3, to: 3 });
    const partOf = (text, cause) => { const { from, to } = partAt(text, { unit: 'line', number: 2, cause }); return text.slice(from, to); };
    same('the sign that no program may have', partOf('X F\nA 5 F ; für\nZ F', 'S1'), 'ü');
    same(
        'or all of its line',
        [partOf('X F\nA\t5 ~\nZ F', 'S1'), partOf('X F\nA für\nZ F', 'S3')],
        ['A\t5 ~', 'A für'],
    );
}

// What a tape may be mistaken in, and how a program came to a word that is no order.
function slips(same) {
    const item = (first, after) => ({ first, after });
    same('the signs of a tape', signsOf('[O0]T6\n O').map(({ sign, from }) => `${sign}${from}`), ['T4', '65', 'O8']);
    const slip = (text, ...items) => { const { hint, item: said, from } = slipOf(text, items) || {}; return [hint, said, from]; };
    same('a 0 where an order begins', slip('T64K 02@', item(0, 4), item(4, 7)), ['tapeZero', '02@', 5]);
    same('an O in a number', slip('T6OK O2@', item(0, 4), item(4, 7)), ['tapeOh', 'T6OK', 2]);
    same(
        'a letter O and a figure 0 where each belongs',
        slip('T60K O20@ OO', item(0, 4), item(4, 8), item(8, 10)),
        [undefined, undefined, undefined],
    );
    same('how a program came to a word that is no order', [[58, 59, 0], [58, 59, 7], [58, 70, 0], [58, 56, 7], [40, 56, 0], [40, 56, 7], [30, 31, 7]]
        .map((way) => leftFrom(...way, 41) || 'loader'), ['left.past.nothing', 'left.past.number', 'left.jumped.nothing', 'left.jumped.number',
        'left.entered.nothing', 'left.entered.number', 'loader']);
}

// What an address asks for, and the address of a link.
const HAVE = { lessons: [1, 2, 3], stories: ['letter', 'disc'], examples: ['hello.edsac'], speeds: [1, 50] };
const ASKED = [
    ['', {}], ['lesson=3', { lesson: '3' }], ['story=disc&speed=50', { story: 'disc', speed: '50' }], ['example=hello.edsac', { example: 'hello.edsac' }],
    ['p=1AB', { letters: '1AB' }], ['view=bench', { view: 'bench' }], ['lang=de&kiosk=60,story=disc&narrow', {}],
    ['note=Hello+class%21', { note: 'Hello class!' }], ['note=%3Cb%3E%0A%07x', { note: '<b>\n x' }],
    ['lesson=4&speed=7', { faults: ['lesson=4', 'speed=7'] }], ['lesson=03', { faults: ['lesson=03'] }], ['story=own&example=', { faults: ['story=own', 'example='] }],
    ['leson=3&lesson=2', { lesson: '2', faults: ['leson'] }], [`story=${'x'.repeat(99)}`, { faults: [`story=${'x'.repeat(34)}`] }],
];

function addresses(same) {
    for (const [address, wanted] of ASKED) {
        const asked = askedOf(new URLSearchParams(address), HAVE);
        same(`what #${address} asks for`, { ...asked }, { ...askedOf(new URLSearchParams(''), HAVE), ...wanted });
    }
    same('a note has plain letters', noteOf('a\u202eb\u0007c'), 'a b c');
    same('a note has at most 300 letters', [...noteOf('\u{1F600}'.repeat(301))].length, 300);
    same('the base of a link', [['https://a.org/e.html#x', ''], ['file:///e.html', 'https://a.org/e'], ['file:///e.html', ''], ['file:///e.html', 'javascript://a/%0a1'],
        ['file:///e.html', 'https://a.org/e#x'], ['https://a.org/e.html', 'https://b.org/']].map((given) => linkBase(...given) || 'none'),
    ['https://a.org/e.html', 'https://a.org/e', 'none', 'none', 'none', 'https://a.org/e.html']);
    const link = linkOf('https://a.org/e', { p: '1A-_', note: 'a & b\nc', lesson: '3', speed: undefined, view: '' });
    same('a link', link, 'https://a.org/e#lesson=3&note=a+%26+b%0Ac&p=1A-_');
    same('there and back', askedOf(new URLSearchParams(link.split('#')[1]), HAVE).note, 'a & b\nc');
    same(
        'the first words of a text',
        [wordsOf('; Prints A.\nsegment main\nO mark F'), wordsOf(`[x]${'a '.repeat(40)}`).length <= 44],
        ['Prints A. segment main O mark F', true],
    );
}

// What a program is called on what is printed of it.
function titles(same) {
    same('the title of a text', ['; Prints A. It stops.\nsegment main\nenter main', '[Prints B: now]', 'segment one\nX F\nenter two', 'T64K', `; ${'a'.repeat(80)}`]
        .map((text) => titleOf(text)), ['Prints A', 'Prints B', 'two', '', `${'a'.repeat(60)} …`]);
    const wide = (rows, says) => Number(stripOf(new Array(rows).fill(0), new Array(rows).fill('P'), () => 0, 'x', says).match(/viewBox="0 0 (\d+)/)[1]);
    same(
        'a short tape has room for what it says',
        [wide(70, 'x'), wide(2, 'x'), wide(2, 'x'.repeat(90)) > 90 * 3.6],
        [720, 40, true],
    );
}

module.exports = { hints, addresses, titles };
