'use strict';
// What is tried in a browser, part by part, and how the parts are shared out among several browsers.
const machine = require('./tried_machine.js');
const runs = require('./tried_runs.js');
const stories = { ...require('./tried_stories.js'), ...require('./tried_endings.js') };
const lessons = require('./tried_lessons.js');
const sharing = require('./tried_sharing.js');
const { loaders } = require('./tried_loaders.js');
const motion = require('./tried_motion.js');
const touch = require('./tried_touch.js');
const { atFirst, ...controls } = require('./tried_controls.js');
const each = require('./tried_each.js');
const looks = require('./tried_looks.js');
const kiosk = require('./tried_kiosk.js');
const guard = require('./tried_guard.js');
const access = require('./tried_access.js');
const hints = require('./tried_hints.js');
const links = require('./tried_links.js');
const lasting = require('./tried_kept.js');
const prints = require('./tried_print.js');
const bench = require('./tried_bench.js');
const marks = require('./tried_marks.js');
const { numbers } = require('./tried_numbers.js');
const screens = require('./tried_screen.js');

// The page with the module of 32-bit memories, which a browser without the other ones takes: what that can change.
async function narrow(b, chosen) {
    if (chosen === 'narrow') {
        return; // all of the page was tried with it
    }
    await b.open('#narrow');
    if (await b.ask(`MODULES.narrow === ''`)) {
        console.log('the page with narrow memories: not tried, since the page was made without them');
        return;
    }
    await b.expect('the module that the page chose', await b.ask('document.body.dataset.ready'), 'narrow');
    await looks.speed(b, 'narrow');
    await b.open('#narrow');
    await machine.firstTape(b);
    await machine.examples(b);
}

// In Chromium everything, in this order.
const IN_CHROMIUM = [
    ...Object.values(machine), ...Object.values(runs), ...Object.values(motion), ...Object.values(touch), ...Object.values(controls), ...Object.values(stories), ...Object.values(lessons),
    ...Object.values(sharing), ...Object.values(hints), ...Object.values(links.parts), ...Object.values(lasting.parts), ...Object.values(prints), ...Object.values(screens), loaders,
    looks.looks, looks.sentences, looks.sentencesUpright, ...Object.values(access), ...Object.values(bench.parts), ...Object.values(marks), numbers, looks.opening,
    atFirst, looks.screens, looks.speed, narrow, links.openedAtFirst, lasting.unkept, ...Object.values(kiosk.parts), ...Object.values(guard), ...Object.values(each.parts), // each opens pages of its own
];

// In Firefox what a visitor does with the machine, what moves, what a hand does on the stage, the stories, the lessons, links
// and languages.
const IN_FIREFOX = [
    ...Object.values(machine), ...Object.values(runs), motion.landings, motion.rests, touch.words, touch.keys, touch.rows, touch.sounds,
    ...Object.values(stories), lessons.lessons, lessons.mistakes, lessons.answers, sharing.links, sharing.languages,
];

// The seconds that each of the longer parts takes in Chromium: the mean of those by the clock and of the processors.
// Every other one takes about as many as OTHERS.
const SECONDS = {
    slips: 30, day: 29, lessons: 28, endings: 25, storyTongues: 21, narrowLessons: 21, eachByKeys: 20, watchdog: 20,
    eachByMouse: 18, asked: 16, former: 13, eachByTouch: 13, places: 13, rotation: 13, landings: 12,
    sentencesUpright: 12, storyParts: 11, sentences: 10, typing: 9, numbers: 9, mistakes: 9, screens: 9, lasting: 9,
    stories: 8, unable: 8, screen: 8, kiosk: 8, storyEnds: 8, opened: 6, arrangement: 6, enter: 6, kioskAddress: 6,
    narrow: 6, printed: 5, looks: 5, made: 5, lettersTyped: 5, marks: 5, openedAtFirst: 5, everySentence: 5, guarded: 4,
    unkept: 4, steps: 4, benchRules: 4, words: 4, printedTape: 4,
};
const OTHERS = 1.4;
const secondsOf = (part) => SECONDS[part.name] || OTHERS;
const SLOWEST = 10; // how many times as long a part may take on a busy computer
const longestOf = (part) => 300 + SLOWEST * secondsOf(part);

// The parts of one of several shares, such as 2/4, in their order. The longest parts are given out first, each to the share
// that has the least.
function shareOf(parts, number, count) {
    const shares = Array.from({ length: count }, () => ({ seconds: 0, parts: new Set() }));
    for (const part of [...parts].sort((one, two) => secondsOf(two) - secondsOf(one))) {
        const least = shares.reduce((one, two) => (two.seconds < one.seconds ? two : one));
        least.seconds += secondsOf(part);
        least.parts.add(part);
    }
    return parts.filter((part) => shares[number - 1].parts.has(part));
}

// The parts that are asked for: all of them, a share, or some by their names. Nothing where no part has such a name.
function askedOf(parts, asked) {
    if (!asked) {
        return parts;
    }
    const [, number, count] = (asked.match(/^([1-9]\d*)\/([1-9]\d*)$/) || []).map(Number);
    if (count) {
        return number <= count ? shareOf(parts, number, count) : undefined;
    }
    const names = asked.split(',');
    const found = parts.filter((part) => names.includes(part.name));
    return found.length === names.length ? found : undefined;
}

// Tries parts one after the other, each in its time.
async function tryParts(b, parts, chosen) {
    for (const part of parts) {
        b.allow(`the part ${part.name}`, longestOf(part));
        await part(b, chosen);
    }
}

// The parts that are asked for, or an end with a line that says which there are.
function partsFor(parts, asked) {
    const found = askedOf(parts, asked);
    if (!found) {
        console.log(`WRONG: no part ${asked}; the parts are ${parts.map((part) => part.name).join(' ')}`);
        process.exit(2);
    }
    return found;
}

module.exports = { IN_CHROMIUM, IN_FIREFOX, SECONDS, askedOf, partsFor, tryParts };
