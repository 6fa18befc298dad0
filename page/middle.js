'use strict';
// Where the middle of a part of the page is in the window once it rests there, and what is over it; undefined if it isn't seen.
// It is scrolled to, if it is outside. A part that is on its way would not be any more where it was seen.
async function middleOf(selector) {
    const LONGEST = 3000; // milliseconds that it may be on its way
    const node = document.querySelector(selector);
    const isThere = () => node && !node.disabled && node.getClientRects().length > 0;
    if (!isThere()) {
        return undefined;
    }
    const frame = () => new Promise((done) => {
        requestAnimationFrame(() => setTimeout(done));
        setTimeout(done, 200); // a tab that isn't seen has no frames
    });
    const isCarried = () => document.getAnimations().some(({ playState, effect }) => (
        playState === 'running' && effect.getComputedTiming().endTime < Infinity && effect.target.contains(node)));
    const boxNow = () => {
        const box = node.getBoundingClientRect();
        if (box.left < 0 || box.top < 0 || box.right > innerWidth || box.bottom > innerHeight) {
            node.scrollIntoView({ block: 'center', inline: 'nearest', behavior: 'instant' });
        }
        return node.getBoundingClientRect();
    };
    const isSame = (one, two) => ['left', 'top', 'width', 'height'].every((side) => one[side] === two[side]);
    let box = boxNow(), was;
    const since = performance.now();
    do {
        await frame();
        [was, box] = [box, boxNow()];
    } while ((!isSame(was, box) || isCarried()) && performance.now() - since < LONGEST);
    if (!isThere()) {
        return undefined;
    }
    const { left, top, width, height } = box;
    const [x, y] = [left + width / 2, top + height / 2];
    const hit = document.elementFromPoint(x, y);
    const isOver = hit === null || !(node.contains(hit) || (node.labels && [...node.labels].some((label) => label.contains(hit))));
    return { x, y, over: isOver ? `${hit && (hit.id || hit.tagName)} is over it` : '' };
}

// Scrolls to a part of the page, if it is outside the window or something is over it, such as a bar of buttons.
// Otherwise nothing is scrolled: that would paint all of the window anew.
function bringIntoSight(selector) {
    const node = document.querySelector(selector);
    if (!node) {
        return;
    }
    const { left, top, right, bottom } = node.getBoundingClientRect();
    const isInside = left >= 0 && top >= 0 && right <= innerWidth && bottom <= innerHeight;
    if (!isInside || !node.contains(document.elementFromPoint((left + right) / 2, (top + bottom) / 2))) {
        node.scrollIntoView({ block: 'center', behavior: 'instant' });
    }
}

// The next click that the page hears, as a promise of the window: the one of a finger comes some time after its touch.
function hearClick() {
    const LONGEST = 1000; // milliseconds, where there is none
    window.clicked = new Promise((done) => {
        addEventListener('click', () => done(true), { capture: true, once: true });
        setTimeout(() => done(false), LONGEST);
    });
}

module.exports = { middleOf, bringIntoSight, hearClick };
