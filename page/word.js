'use strict';
// A word that a visitor has opened: its letter, its address and its length as lamps that can be flipped, and what the word
// then means. Nothing of the machine's store changes: a copy of the tape is read when that is asked for.
const WORD_PARTS = [['letter', 5], ['address', 11], ['length', 1]]; // digits of each part
const WORD_DIGITS = 17;
const opened = { place: undefined, word: 0, was: 0, copy: undefined };

// The lamps of a word.
function makeWord() {
    WORD_PARTS.forEach(([name, count]) => {
        const part = document.createElement('div'), said = document.createElement('p');
        part.className = 'part';
        part.setAttribute('role', 'group');
        part.dataset.label = `word.${name}`;
        said.id = `word_${name}`;
        const keys = document.createElement('div');
        keys.append(...Array.from({ length: count }, () => document.createElement('button')));
        part.append(keys, said);
        by('wordLamps').append(part);
    });
    wordKeys().forEach((key, k) => {
        key.append(document.createElement('i'));
        key.onclick = () => flip(k);
    });
}

const wordKeys = () => [...by('wordLamps').querySelectorAll('button')];

// Opens the word in a place. A run or a story ends with it.
function openWord(place) {
    if (place === undefined || !isAlive()) {
        return;
    }
    halt();
    const word = page.shown.words[place];
    Object.assign(opened, { place, word, was: word });
    by('word').hidden = false;
    draw();
    by('word').focus({ preventScroll: true });
}

function closeWord() {
    opened.place = undefined;
    by('word').hidden = true;
}

// Flips a digit, counted from the left.
function flip(digit) {
    opened.word ^= 1 << (WORD_DIGITS - 1 - digit);
    drawWord();
}

// The word as it is in the store, unless the visitor has changed it, with what it means.
function drawWord() {
    if (opened.place === undefined) {
        return;
    }
    const { words, machine, program, shown } = page;
    if (opened.word === opened.was) {
        opened.word = opened.was = shown.words[opened.place];
    }
    const { place, word, was } = opened;
    const meant = machine.meaning(word, program.small), order = orderText(word);
    const bits = binary(word, WORD_DIGITS);
    wordKeys().forEach((key, k) => {
        key.firstChild.className = bits[k] === '1' ? 'on' : '';
        key.setAttribute('aria-pressed', String(bits[k] === '1'));
        key.setAttribute('aria-label', words.say('word.digit', { number: k + 1 }));
    });
    const [, letter, address, length] = order.match(/^(.)(\d*)(.)$/);
    by('word_letter').textContent = words.say('word.isLetter', { letter });
    by('word_address').textContent = words.say('word.isAddress', { address: address || 0 });
    by('word_length').textContent = words.say('DL'.includes(length) ? 'word.isLong' : 'word.isShort');
    by('wordHead').textContent = words.say(word === was ? 'word.head' : 'word.changed', { place, order, was: orderText(was) });
    by('wordMeans').textContent = `${order}: ${words.meaning(meant)}`;
    by('wordNumber').textContent = words.say(meant.number < 0 ? 'word.numberBelow' : 'word.number', {
        number: words.number(meant.number), listed: words.number(word) });
    opened.copy = word === was ? undefined : copyWith(place, word);
    by('wordRun').disabled = opened.copy === undefined;
    by('wordUndo').disabled = word === was;
    by('wordSays').textContent = words.say(word === was ? 'word.flip' : opened.copy ? 'word.copy' : 'word.noTape');
}

// A copy of the tape is read, and a short story shows it at work.
function runCopy() {
    const { copy, place, word } = opened;
    replacing(() => {
        by('examples').value = '';
        by('stories').value = 'own';
        by('nameLabel').hidden = true;
        put(copy);
        tell({ key: 'told.copy', values: { order: orderText(word), place } });
    });
}
