'use strict';
// Makes stories pass in a part of their time, or again in all of it. Nineteen of twenty waits of such a story end at once, so that
// the browser paints one picture of twenty: painting takes most of the time, and nobody looks.
function hasten(part) {
    const PAINTED = 20;
    page.hurry = part;
    if (page.formerTimeout) {
        return;
    }
    let waits = 0;
    page.formerTimeout = window.setTimeout;
    window.setTimeout = (does, ...given) => {
        const isOfStory = page.hurry < 1 && page.tour && does === page.tour.wake;
        return isOfStory && ++waits % PAINTED ? queueMicrotask(does) : page.formerTimeout.call(window, does, ...given);
    };
}

module.exports = { hasten };
