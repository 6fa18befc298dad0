'use strict';
// The page's rules for tapes and names, without a browser: the figures of a tape, its holes, its form, its colours.
const fs = require('fs');
const path = require('path');
const { figuresOf } = require('./words.js');
const { formOf, kindOf } = require('./share.js');
const { printable, tapeOf } = require('./stories.js');
const { punchedOf } = require('./tape.js');
const { STRIP, stripOf } = require('./strip.js');
const { partsOf } = require('./editor.js');

const LETTERS = 'PQWERTYUIOJ#SZK*.F@D!HNM&LXGABCV';
const codes = (text) => [...text].map((sign) => (/\d/.test(sign) ? Number(sign) : LETTERS.indexOf(sign)));
const figured = (text, ...ends) => figuresOf(codes(text), ends.map((after, k) => ({ first: k ? ends[k - 1] : 0, after })))
    .map((is) => (is ? '9' : '-')).join('');

function figures(same) {
    same('the figures of a tape', figured('T64KGKO2@', 4, 6, 9), '-99---' + '-9-');
    same('what follows the entry is not the loader\'s', figured('E64KPF12F', 4, 6), '-99-' + '--' + '---');
    same('a function and a mark are no figures', figured('1#F12', 3), '-----');
    same('no figure without an item', figured('12'), '--');
    same('blank tape has no hole, erase has five', ['.', '*'].map((sign) => punchedOf(LETTERS.indexOf(sign))), [0, 31]);
}

function names(same) {
    same(
        'names that the teleprinter can print',
        ['ada', ' Jürgen ', 'Strauß', '1234', 'Anna Maria Luise'].map(printable),
        ['ADA', 'JURGEN', 'STRAUSS', 'EDSAC', 'ANNA MARIA L'],
    );
    same('a tape that prints a name', tapeOf('AB').split('\n').slice(1), ['T64K GK', 'O3@ O4@ ZF', 'AF BF', 'EZPF', '']);
    same('a blank in a name', tapeOf('A B').includes('AF !F BF'), true);
}

function kinds(same) {
    same(
        'a source by its name or its lines',
        [kindOf('a.tape', 'segment'), kindOf('a.edsac', ''), kindOf('a.txt', '; x\nsegment main'), kindOf('a.txt', 'T64K')],
        ['tape', 'source', 'source', 'tape'],
    );
    same(
        'a tape of May 1949 by its name or its form',
        [kindOf('a.tape1', 'T64K'), kindOf('a.TAPE1', ''), kindOf('a.tape', 'T35S'), kindOf('a.txt', 'T35S')],
        ['tape1', 'tape1', 'tape', 'tape1'],
    );
    same(
        'the form of a text',
        ['[T9K] T 7\n4 S', 'TS', 'T64K GK', 'A5S', '', 'segment main'].map(formOf),
        ['tape1', 'tape', 'tape', 'tape', 'tape', 'source'],
    );
    for (const name of fs.readdirSync(path.join(__dirname, '../examples')).filter((one) => /\.(tape1?|edsac)$/.test(one))) {
        const text = fs.readFileSync(path.join(__dirname, '../examples', name), 'utf8');
        same(`the form of ${name}`, formOf(text), kindOf(name, text));
    }
}

function colours(same) {
    const whole = (parts) => parts.map(([, part]) => part).join('');
    for (const [kind, text] of [['source', 'a: A b F ; x\ntext "A;B"\n'], ['tape', 'T64K [x] GK']]) {
        same(`no character of a ${kind} is lost`, whole(partsOf(text, kind)), text);
    }
    same(
        'the parts of a line',
        partsOf('_a: T _b F ; "x" F', 'source'),
        [['label', '_a: '], ['order', 'T'], ['', ' _b F '], ['comment', '; "x" F']],
    );
    same('a string is no comment', partsOf('text "A;B"', 'source'), [['word', 'text'], ['', ' '], ['string', '"A;B"']]);
}

function strips(same) {
    const strip = stripOf(codes('.*A'), ['.', '*', '<!--'], punchedOf, '<b>', 'x');
    same(
        'holes of three rows',
        (strip.match(/class="hole"/g) || []).length,
        0 + 5 + punchedOf(28).toString(2).replace(/0/g, '').length,
    );
    const [, highest] = stripOf([0], ['P'], punchedOf, 'x', 'x').match(/class="hole" cx="15" cy="([\d.]+)"/);
    same('the top hole of a row is above the others', Number(highest), 44 + STRIP.tracks[0]);
    same(
        'what a tape says is escaped',
        [strip.includes('<!--'), strip.includes('&lt;!--'), strip.includes('&lt;b&gt;')],
        [false, true, true],
    );
    same(
        'a long tape is cut into pieces',
        (stripOf(new Array(STRIP.rows + 1).fill(0), new Array(STRIP.rows + 1).fill('P'), punchedOf, 'x', 'x').match(/class="cut"/g) || []).length,
        2,
    );
}

function tapes(same) {
    figures(same);
    names(same);
    kinds(same);
    colours(same);
    strips(same);
}

module.exports = { tapes };
