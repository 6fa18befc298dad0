'use strict';
// Tries the rules of the workbench without a browser: which lines have which places, columns, and how numbers are read.
const { wordsOfLine, placesOfLines, partsOfSource, partsOfTape, partOfPlace } = require('./lines.js');
const { columnOf } = require('./marks.js');
const { FORMS, registerText, registerSpoken, wordText } = require('./figures.js');

const item = (location, first = 0, after = 0) => ({ location, first, after });
const words = (...places) => places.map((place) => item(place));

function lines(same) {
    for (const [line, form, count] of [
        ['A 5 F', 'word', 1], ['  ', '', 0], ['; Z F', '', 0], ['loop: A5F ; text "AB"', 'word', 1], ['word: # F', 'word', 1],
        ['_a:word -5', 'word', 1], [' \t a: long 5 ; x', 'long', 2], ['text "HELLO"', 'text', 5], ['text"A;" ; "B"', 'text', 2], ['long 5', 'long', 2], ['n :\tlong 5', 'long', 2],
        ['use print as p with H=word', 'use', 0], ['segment word', 'segment', 0], ['enter text', 'enter', 0], ['data "12F"', 'data', 0],
        ['version 2', 'version', 0], ['here:', '', 0], ['Z F\r', 'word', 1],
    ]) {
        same(`the words of ${line}`, wordsOfLine(line), { form, count });
    }
    const source = ['segment main', 'A a F', 'text "AB"', 'long 5', '', 'use print as p with H=a', 'segment end', 'Z F', 'enter main'];
    const items = [item(undefined), ...words(56, 57, 58, 59, 60, 61), item(undefined), item(45), item(undefined), ...words(62, 63, 64), item(undefined), item(65),
        item(undefined)];
    same('the places of lines', placesOfLines(source, items), [[], [56], [57, 58], [60, 61], [], [62, 63, 64], [], [65], []]);
    const parts = partsOfSource(source.join('\n'), items);
    same('the line of a place', [57, 58, 59, 64, 45].map((place) => (partOfPlace(parts, place) || {}).line), [2, 2, undefined, 5, undefined]);
    same('its part of the text', source.join('\n').slice(parts[1].from, parts[1].to), 'text "AB"');
}

function items(same) {
    const text = '[T] T64K GK\n\tO2@ Z\nF [a] EZPF';
    const all = [item(undefined, 0, 4), item(undefined, 4, 6), item(64, 6, 9), item(65, 9, 11), item(undefined, 11, 15)];
    const parts = partsOfTape(text, all, 15);
    same('the items of a tape', parts.map(({ line, from, to, places }) => [line, text.slice(from, to), places[0]]), [[1, 'O2@', 64], [1, 'Z\nF', 65]]);
    same('a text with other rows has none', partsOfTape(text, all, 14), []);
    same('of two items for a place, the last counts', partOfPlace(partsOfTape('AFBF', [item(64, 0, 2), item(64, 2, 4)], 4), 64).from, 2);
    same('a tab goes to the next stop', [0, 1, 2].map((k) => columnOf('a\tb', k)).concat(columnOf('x\n12345678\tb', 11)), [0, 1, 8, 16]);
}

// A word, the accumulator and the multiplier in each form, in both languages.
function numbers(same, languages) {
    const orders = { 5: 'P2D', 114810: 'A61F', 36980: 'O58F' };
    const meaning = (word) => ({ number: word < 65536 ? word : word - 131072 });
    const choice = { value: '' };
    Object.assign(globalThis, { by: () => choice, orderText: (word) => orders[word], binary: (value, digits) => value.toString(2).padStart(digits, '0') });
    const WANTED = {
        en: { 5: ['5', '5', '0.00008', 'P2D', '00000000000000101'], 114810: ['A61F', '-16,262', '-0.24814', 'A61F', '11100000001111010'] },
        de: { 5: ['5', '5', '0,00008', 'P2D', '00000000000000101'], 114810: ['A61F', '-16.262', '-0,24814', 'A61F', '11100000001111010'] },
    };
    const half = (1n << 54n) * 5n + (1n << 53n); // 5.5
    const REGISTERS = [
        [5n << 54n, 71, ['5', '5', '0.00008', 'P2D', `00000000000000101 ${'0'.repeat(18)} ${'0'.repeat(36)}`]],
        [36980n << 54n, 71, ['O58F = 36,980', '36,980', '0.56427', 'O58F', `01001000001110100 ${'0'.repeat(18)} ${'0'.repeat(36)}`]],
        [half, 71, ['5.5', '5.5', '0.00008', 'P2D', `00000000000000101 1${'0'.repeat(17)} ${'0'.repeat(36)}`]],
        [1n, 71, ['0', '0', '8.4703E-22', undefined, `${'0'.repeat(17)} ${'0'.repeat(18)} ${'0'.repeat(35)}1`]],
        [36980n << 18n, 35, ['36,980', '36,980', '0.56427', 'O58F', `01001000001110100 ${'0'.repeat(18)}`]],
    ];
    FORMS.forEach((form, k) => {
        for (const [name, wanted] of Object.entries(WANTED)) {
            globalThis.page = { words: languages[name], machine: { meaning } };
            for (const [word, texts] of Object.entries(wanted)) {
                same(`${word} in ${name} ${form}`, wordText(Number(word), form), texts[k]);
            }
        }
        globalThis.page = { words: languages.en, machine: { meaning } };
        choice.value = form;
        REGISTERS.forEach(([value, digits, texts]) => same(`a register of ${digits} digits, ${value}, ${form}`, registerText(value, digits), texts[k]));
    });
    same('zeros at the end are not spoken', [5n << 54n, half, 0n].map((value) => registerSpoken(value, 71)),
        ['00000000000000101', `00000000000000101 1${'0'.repeat(17)}`, '0'.repeat(17)]);
}

function bench(same, languages) {
    lines(same);
    items(same);
    numbers(same, languages);
}

module.exports = { bench };
