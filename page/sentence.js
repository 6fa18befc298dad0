'use strict';
// The large sentence: what the last order did, how a run has ended, and what is said aloud.
const READ = { word: wordSpoken, long: longText, register: (shown, name) => registerSpoken(shown[name], name === 'acc' ? ACC : LONG) };
const SPOKEN = 400; // characters of a paper, at most, that are said aloud

// Whether the picture is beside the one of the order before, and is to be looked at.
const isBeside = () => page.before !== undefined && page.before !== EMPTY;

const isOneOrder = () => isBeside() && !isFast() && page.shown.orders - page.before.orders === 1;

// Whether the exhibit has just been opened: it says what the machine is for, and to press Show me.
const isFirst = () => page.isNew && !isBench();

// The order that was obeyed last, and what it does; or who is at work while orders pass too fast to be named.
function doneText() {
    const { before, shown, machine, program, words } = page;
    if (!isBeside()) {
        const key = isFirst() ? 'told.why' : keysNow() === 'name' ? 'pressName' : isBench() ? 'pressRun' : 'press';
        return before ? words.say(key) : '';
    }
    if (!isOneOrder()) {
        return words.say(shown.counter < placesOf(program.kind) ? 'runsLoader' : 'runsProgram');
    }
    const word = before.words[before.counter];
    return words.say('told.order', { order: orderText(word), meaning: words.meaning(machine.meaning(word, program.small)) });
}

function didText() {
    if (page.before === EMPTY && isFirst()) {
        return page.words.say('press');
    }
    if (page.before === EMPTY) {
        return page.words.say(page.program.kind === 'tape1' ? 'atStart1' : 'atStart');
    }
    return leftText(page.shown) || endlessText() || (isOneOrder()
        ? page.words.say('before', { said: page.words.changes(page.before, page.shown, page.machine, page.rows, READ) }) : '');
}

function changedText() {
    const places = page.before ? changedPlaces(page.before, page.shown) : [];
    return page.words.say(places.length ? 'changedPlaces' : 'noPlace', { places: places.slice(0, 8).join(', ') });
}

function endingText(shown) {
    if (shown.ending === 'limit') {
        return shown.orders >= FURTHEST ? page.words.say('furthest', { count: page.words.number(FURTHEST) }) : '';
    }
    return page.words.has(`ends.${shown.ending}`) ? page.words.say(`ends.${shown.ending}`, { note: shown.note }) : '';
}

// Says aloud what was printed after a count of codes, how the run ended, and why it stands still or does not stop.
function speakPrinted(from) {
    const text = isAlive() ? page.shown.way.text(from, page.shown.printed).replace(/\s+/g, ' ').trim().slice(-SPOKEN) : '';
    const why = isAlive() ? leftText(page.shown) || endlessText() : '';
    const printed = page.words.say(text ? 'printedAloud' : 'printedNothing', { text }).replace(/([^.])$/, '$1.');
    sayAt('spoken', () => [printed, endingText(page.shown), why].filter(Boolean).join(' '));
}

// Says aloud, for those who can't see it, what a step did.
function speak() {
    const said = () => page.words.say('spoken', {
        did: by('did').textContent, place: page.shown.counter, meaning: by('meaning').textContent,
    });
    sayAt('spoken', () => (isAlive() ? `${endingText(page.shown)} ${said()}`.trim() : ''));
}
