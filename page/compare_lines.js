'use strict';
// Tries which line of a source the page leads to which place, by another way than the page's: a line is changed, and the
// places whose words differ in the listing are those of the line. Where a routine begins, an order that names it says.
const { statementOf, partsOfSource } = require('./lines.js');

// The words of a program's listing, by their places.
function listed(listing) {
    return new Map(listing.trimEnd().split('\n').map((line) => {
        const [place, word, order] = line.trim().split(/\s+/);
        return [Number(place), { word, order }];
    }));
}

// A source with another line.
const withLine = (lines, at, line) => lines.map((one, k) => (k === at ? line : one)).join('\n');

// A line with another word, by its form. The label and the comment stay.
function otherLine(line) {
    const statement = statementOf(line);
    const [, form, number] = statement.match(/^(word|long)\s*(-?\s*\d+)$/) || [];
    const other = form ? `${form} ${number === '2' ? 4 : 2}`
        : /^text/.test(statement) ? statement.replace(/"(.*)"/, (whole, rows) => `"${rows.replace(/./g, (row) => (row === 'Q' ? 'W' : 'Q'))}"`)
            : statement.replace(/^./, (letter) => (letter === 'X' ? 'Y' : 'X'));
    return line.replace(statement, () => other);
}

// The lines of a source beside the listing of its changes. `listingOf` says a text's listing, or nothing if it is refused.
function compareLines(name, text, listingOf, items, same) {
    const lines = text.split('\n'), before = listed(listingOf(text)), parts = partsOfSource(text, items);
    const placesOf = (line) => (parts.find((part) => part.line === line) || { places: [] }).places;
    const spare = lines.findIndex((line) => /^[A-Z]\b/.test(statementOf(line))); // an order, which may name a routine instead
    let tried = 0;
    lines.forEach((line, at) => {
        const statement = statementOf(line), [, routine] = statement.match(/^use\s+\w+\s+as\s+(\w+)/) || [];
        if (routine && spare >= 0) {
            const named = listed(listingOf(withLine(lines, spare, lines[spare].replace(statementOf(lines[spare]), `G ${routine} F`))));
            const begins = Number(named.get(placesOf(spare)[0]).order.slice(1, -1));
            same(`${name}, line ${at + 1}: the routine's first place`, placesOf(at)[0], begins);
            tried++;
        } else if (/^([^a-z\s]|(word|long|text)\b)/.test(statement)) {
            const after = listed(listingOf(withLine(lines, at, otherLine(line))));
            const differ = [...after.keys()].filter((place) => after.get(place).word !== (before.get(place) || {}).word);
            const isLong = /^long\b/.test(statement);
            same(`${name}, line ${at + 1}: its places`, isLong ? placesOf(at)[0] : placesOf(at).join(), isLong ? differ[0] : differ.join());
            tried++;
        } else {
            same(`${name}, line ${at + 1}: a line without places`, routine ? 0 : placesOf(at).length, 0);
        }
    });
    const all = parts.flatMap(({ places }) => places);
    same(`${name}: no place of two lines`, new Set(all).size, all.length);
    const left = [...before.keys()].filter((place) => place >= 56 && !all.includes(place));
    same(`${name}: every other place is one that a long word leaves free`, left.every((place) => before.get(place).word === '0'
        && parts.some(({ places }) => places[0] === place + 1)), true);
    return tried;
}

// A source with every form, and what may mislead a reader of its lines.
const EVERY_FORM = `version 2
; segment other at 900 "; a comment with its signs
segment main ; "main"
word: O word F
 _a:A 5F;Z F
text "O#Z&"     ; four words
_b: long 7      ; it begins at an even place
text: word -5
use: . F
\tuse print as p with H=use
use newline as n
segment far at 300
at_odd: text"AB" ; two words
Z F

long 7
use root as m with H=word, N=use
segment again
last: P last-at_odd F
enter main
data "12F"
`;

module.exports = { compareLines, EVERY_FORM };
