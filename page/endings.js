'use strict';
// How a run went wrong: where a program left its orders, and the loop of one that does not stop.
const ROUND = 200; // orders, at most, in which a loop is looked for
const PATIENCE = 8000; // milliseconds of a run after which it is asked whether the program ever stops
const watch = { run: undefined, since: 0, way: undefined, ended: undefined, loop: undefined, isAsked: false };

// How a machine came to a word that is no order: the place before, and what is to be said of it. What the loader itself
// did wrong is the tape's fault.
function leftFrom(from, place, word, loader) {
    const what = word === 0 ? 'nothing' : 'number';
    if (from < loader) {
        return place < loader ? undefined : `left.entered.${what}`;
    }
    return `left.${from + 1 === place ? 'past' : 'jumped'}.${what}`;
}

function leftText(shown) {
    if (shown.ending !== 'no order' || shown.orders === 0) {
        return '';
    }
    const place = shown.counter, from = pictureAt(shown.orders - 1, shown).counter;
    const key = leftFrom(from, place, shown.words[place], placesOf(page.program.kind));
    return key ? page.words.say(key, { from, place }) : '';
}

// The places between which a run goes round; undefined if it ends by itself before as many orders as nobody watches.
function loopAfter(shown) {
    const far = pictureAt(shown.orders + TRIED, shown);
    if (shown.orders + TRIED > FURTHEST || !['limit', 'paper full'].includes(far.ending)) {
        return undefined;
    }
    const places = [];
    let at = pictureAt(Math.max(shown.orders, far.orders - ROUND));
    while (places.length < ROUND && at.ending === 'limit') {
        places.push(at.counter);
        at = pictureAt(at.orders + 1, at);
    }
    return { first: Math.min(...places), last: Math.max(...places) };
}

// Asks of a program that runs for long, or was ended by Pause, whether it ever stops. The answer stands until the next
// picture after the run.
function endlessText() {
    const { running, shown, way } = page;
    const isLoading = shown.counter < placesOf(page.program.kind);
    if (running && (running !== watch.run || isLoading)) {
        Object.assign(watch, { run: running, since: page.clock(), way, ended: undefined, loop: undefined, isAsked: false });
    }
    watch.ended = running ? undefined : watch.ended || shown;
    if (watch.way !== way || isLoading || shown.ending !== 'limit' || (!running && watch.ended !== shown)) {
        return '';
    }
    if (!watch.isAsked && (!running || page.clock() - watch.since > PATIENCE)) {
        Object.assign(watch, { loop: loopAfter(shown), isAsked: true });
    }
    return watch.loop ? page.words.say('endless', { ...watch.loop, orders: page.words.number(TRIED) }) : '';
}

if (typeof module !== 'undefined') {
    module.exports = { leftFrom };
}
