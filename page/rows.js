'use strict';
// What the rows of the lens say: which place the lens is about, and what a word is or does, in few words.
const CODE_DIGITS = 12; // digits of a word below those that are a code
const SHIFT_CODES = [11, 15]; // the codes that set figure shift and letter shift
const NAMED_CODES = { 11: 'figures', 15: 'letters', 18: 'return', 20: 'space', 24: 'feed' };

// The places whose words are codes to print: an order O of the program names them, or they are beside such a one and name
// no place.
function codePlaces(words, start, meaningOf) {
    const found = new Set();
    const isCode = (place) => {
        const { letter, location, isLong, number } = meaningOf(words[place]);
        return location === 0 && !isLong && letter !== 'Z' && Math.abs(number) >= 2048;
    };
    for (let at = start; at < words.length; at++) {
        const { letter, named } = meaningOf(words[at]);
        if (letter === 'O' && named >= start && !found.has(named)) {
            found.add(named);
            for (const by of [1, -1]) {
                for (let place = named + by; place in words && isCode(place); place += by) {
                    found.add(place);
                }
            }
        }
    }
    return found;
}

// The rows of the lens.
function drawLens(meant) {
    const { shown, before, machine, tour, program, words } = page;
    const isOne = isOneOrder(), start = placesOf(program.kind);
    const isOfItem = Boolean(tour && tour.item) && shown.counter < start; // the loader's order is beside the point
    const next = isOfItem || isEnded() ? undefined : meant;
    const codes = codePlaces(shown.words, start, (word) => machine.meaning(word, program.small));
    const moved = page.moves.flatMap(({ from, to }) => [from, to]);
    const done = isOne ? machine.meaning(before.words[before.counter], program.small) : undefined;
    const pairOf = (one) => (one && one.isLong && one.named !== undefined ? [one.pair, one.pair + 1] : []);
    const seen = [...pairOf(done), ...moved, ...pairOf(next), next && next.named];
    lens.draw({
        ...focusNow(isOne), found: page.peek, named: next && next.named, counter: isOfItem ? undefined : shown.counter,
        done: isOne ? before.counter : undefined, places: program.small ? 512 : 1024,
        pairs: isFast() ? [] : [...pairOf(done), ...pairOf(next)].filter((place) => place % 2 === 0),
        others: seen.filter((place) => place !== undefined),
        said: (place) => wordSaid(place, codes, isOne), saidLong: longSaid,
    });
    by('who').textContent = words.say(shown.counter < start ? (start === LOADER ? 'isLoader' : 'isLoader1') : 'isProgram');
    by('who').classList.toggle('on', shown.counter >= start);
    const at = isOne ? before.counter : shown.counter;
    drawNote(lens.rowOf(at) ? at : undefined);
}

// The line below the rows: what the loader's order just obeyed is for, if one is seen, or else that a row can be touched.
function drawNote(place) {
    const comment = place < placesOf(page.program.kind) ? commentOf(place) : null;
    by('note').textContent = comment ?? page.words.say(isBench() ? 'touchRowHere' : 'touchRow');
    by('note').classList.toggle('comment', comment !== null);
}

// What a row of the lens has of a place.
function wordSaid(place, codes, isOne) {
    const { shown, before, words } = page;
    const word = shown.words[place], old = before ? before.words[place] : word;
    const isNew = word !== old;
    const brief = isNew && isOne && old ? words.say('brief.was', { old: wordText(old) }) : briefOf(word, codes.has(place));
    return { bits: binary(word, SHORT), word: word ? spelledOf(word) : '', isNew, isIdle: word === 0, brief };
}

// What two rows of the lens have of a long word: its 35 digits, and its number.
function longSaid(pair) {
    const { shown, before, words } = page;
    const digitsOf = (picture) => binary(picture.words[pair + 1], SHORT) + picture.digits[pair >> 1] + binary(picture.words[pair], SHORT);
    const bits = digitsOf(shown);
    return { bits, brief: words.say('brief.long'), number: longText(shown, pair), isNew: Boolean(before) && digitsOf(before) !== bits };
}

// What a row says large: the order, or the number as it is read now.
const spelledOf = (word) => wordText(word, ['whole', 'fraction'].includes(formNow()) ? formNow() : 'order');

// What a word is or does, in a few words: a small one is a number, and one that is printed a code. Where words are read as
// orders or as digits, it is what it does or its digits.
function briefOf(word, isPrinted) {
    const { machine, words } = page;
    const meant = machine.meaning(word, page.program.small), form = formNow();
    if (form === 'digits') {
        return wordText(word);
    }
    if (form !== 'order' && Math.abs(meant.number) < LEAST_ORDER) {
        return word === 0 ? '0' : form === 'fraction' ? '' : words.say('brief.number', { number: words.number(meant.number) });
    }
    return isPrinted && form !== 'order' ? codeText(word >> CODE_DIGITS) : words.brief(meant);
}

// What a code prints in the present shift of the teleprinter.
function codeText(code) {
    const { words, shown, machine } = page;
    if (NAMED_CODES[code]) {
        return words.say(`brief.codes.${NAMED_CODES[code]}`);
    }
    const sign = machine.sign(shiftOf(shown), code);
    return sign ? words.say('brief.code', { sign }) : words.say('brief.codes.none');
}

// The last code that set a shift up to a picture, or null.
function shiftOf(shown) {
    if (shown.shift === undefined) {
        const codes = shown.way.codes.subarray(0, shown.printed);
        const last = Math.max(...SHIFT_CODES.map((code) => codes.lastIndexOf(code)));
        shown.shift = last < 0 ? null : codes[last];
    }
    return shown.shift;
}

// The place that the lens is about: the one that a visitor asked for or that a story tells of, that of the order at the
// counter, or, while the loader works fast, that of the last word that came into the store.
function focusNow(isOne) {
    const { shown, before, tour } = page;
    const start = placesOf(page.program.kind);
    if (page.peek !== undefined) {
        return { focus: page.peek };
    }
    if (tour && tour.item !== undefined) {
        return { focus: tour.place ?? lens.first };
    }
    if (isOne || !isBeside() || shown.counter >= start) {
        return { focus: shown.counter, isFast: isFast() };
    }
    if (!isFast() && !tour) {
        return { focus: shown.counter };
    }
    const placed = changedPlaces(before, shown).filter((place) => place >= start + 3).pop();
    const due = page.items.find(({ location }) => location !== undefined); // until a word has come, where the first will
    return { focus: placed ?? (lens.first < start && due ? due.location : lens.first), isFast: isFast() };
}

if (typeof module !== 'undefined') {
    module.exports = { codePlaces };
}
