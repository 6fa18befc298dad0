'use strict';
// Which part of a text puts a word into which place: a line of a source, an item of a tape. The places are those that the
// machine reports of the tape's items, which follow the text in its order.
const FIRST_WORD = 56; // the first place of a source's own words: below it are the loader and the parameters of routines

// The statement of a source's line, without its comment and its label.
function statementOf(line) {
    const [said] = line.match(/^(?:[^";]|"[^"]*"?)*/);
    return said.replace(/^\s*[a-z_]\w*\s*:/, '').trim();
}

// How many words a line of a source puts into the store, and by which form. Those of a routine are not known here.
function wordsOfLine(line) {
    const statement = statementOf(line);
    const [form] = statement.match(/^(?:segment|enter|data|version|use|long|text)\b/) || [statement ? 'word' : ''];
    const rows = statement.match(/"([^"]*)"/);
    return { form, count: { word: 1, long: 2, text: rows ? rows[1].length : 0 }[form] || 0 };
}

// The places of each line of a source. A long word begins at an even place, and may leave one free before it. A routine's
// words are those up to the next item without a place.
function placesOfLines(lines, items) {
    const isWord = (item) => item !== undefined && item.location >= FIRST_WORD;
    let at = 0;
    const passTo = (isThere) => {
        while (at < items.length && !isThere(items[at])) {
            at++;
        }
    };
    return lines.map((line) => {
        const { form, count } = wordsOfLine(line), places = [];
        if (count > 0 || form === 'use') {
            passTo(isWord);
        }
        if (form === 'long' && isWord(items[at]) && items[at].location % 2 === 1) {
            at++;
        }
        while (isWord(items[at]) && (form === 'use' || places.length < count)) {
            places.push(items[at++].location);
        }
        return places;
    });
}

// The parts of a source that have places: its lines.
function partsOfSource(text, items) {
    const lines = text.split('\n');
    let from = 0;
    return placesOfLines(lines, items).map((places, line) => {
        const part = { line, from, to: from + lines[line].length, places };
        from = part.to + 1;
        return part;
    }).filter(({ places }) => places.length > 0);
}

// The parts of a tape that have places: its items. Undefined places are those of items for the loader itself. A row is a
// sign of the text that is no blank and in no comment.
function partsOfTape(text, items, rows) {
    const signs = [...text.matchAll(/\[[^\]]*\]|\s+|(?<sign>.)/gs)].filter(({ groups }) => groups.sign).map(({ index }) => index);
    if (signs.length !== rows) {
        return [];
    }
    return items.filter(({ location }) => location !== undefined).map(({ first, after, location }) => (
        { line: text.slice(0, signs[first]).split('\n').length - 1, from: signs[first], to: signs[after - 1] + 1, places: [location] }));
}

// The parts of a program's text that have places, in the order of the text.
function partsWithPlaces({ text, kind }, items, rows) {
    return kind === 'source' ? partsOfSource(text, items) : partsOfTape(text, items, rows);
}

// The part that puts a word into a place: if there is more than one, the last.
const partOfPlace = (parts, place) => parts.filter(({ places }) => places.includes(place)).pop();

if (typeof module !== 'undefined') {
    module.exports = { statementOf, wordsOfLine, placesOfLines, partsOfSource, partsOfTape, partOfPlace };
}
