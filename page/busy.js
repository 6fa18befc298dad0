'use strict';
// A measure of time on a busy computer: it is judged by the share of a processor that a program gets there.
const LOOK = 200; // milliseconds in which the share is seen

// How many times as long something takes as on a computer that does nothing else: for a loop, the time by the clock over that of
// the processor.
function busyness() {
    const since = performance.now(), before = process.cpuUsage();
    while (performance.now() - since < LOOK) { /* a loop that only takes time */ }
    const { user, system } = process.cpuUsage(before);
    return Math.max(1, ((performance.now() - since) * 1000) / (user + system));
}

// What was measured took at most so many milliseconds, as on a computer that does nothing else.
async function expectWithin(b, what, took, most) {
    const allowed = took <= most ? most : most * busyness();
    await b.expect(what, took, (ms) => ms <= allowed);
}

module.exports = { expectWithin };
