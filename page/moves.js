'use strict';
// Which moves there are between two pictures, and where each begins and ends on the screen.

// What moved between two pictures that are one order apart. A long word is named by the first of its two places, and `textOf`
// says what is in a place.
function movesOf(before, after, machine, textOf, rowText) {
    const at = before.counter;
    const { letter, named, isLong, pair, shift } = machine.meaning(before.words[at], after.way.small);
    const place = isLong ? pair : named;
    const printed = printedBetween(before, after);
    const moves = [];
    if (printed) {
        moves.push({ kind: 'printed', text: printed, from: named });
    } else if (letter === 'I' && before.rowsLeft !== after.rowsLeft) {
        moves.push({ kind: 'read', text: rowText, to: place });
    } else if (named !== undefined && 'ASVNC'.includes(letter)) {
        moves.push({ kind: 'added', text: textOf(before, place, isLong), from: place });
    } else if (letter === 'H') {
        moves.push({ kind: 'taken', text: textOf(before, place, isLong), from: place });
    } else if (named !== undefined && 'TU'.includes(letter)) {
        moves.push({ kind: 'stored', text: textOf(after, place, isLong), to: place });
    } else if ('RL'.includes(letter) && shift > 0) {
        moves.push({ kind: 'shifted', by: letter === 'R' ? shift : -shift });
    }
    if ('VNC'.includes(letter)) {
        moves.push({ kind: 'multiplied' });
    }
    if (after.counter !== at && after.counter !== at + 1) {
        moves.push({ kind: 'jumped', from: at, to: after.counter });
    }
    return moves;
}

// What moved up to the picture that is shown.
function movesNow() {
    const { shown, before, tour, machine } = page;
    if (!isAlive() || !isBeside() || isFast() || (tour && tour.isQuick)) {
        return [];
    }
    if (tour && tour.item !== undefined) {
        return [{ kind: 'read', text: tour.item, to: tour.place }];
    }
    const rowText = page.labels[page.rows.length - before.rowsLeft];
    const textOf = (picture, place, isLong) => (isLong ? longText(picture, place) : wordText(picture.words[place]));
    return shown.orders - before.orders === 1 ? movesOf(before, shown, machine, textOf, rowText) : [];
}

// Shows one move: each of them has its way.
const WAYS = {
    printed(text, source) {
        const paper = by('paper').lastChild;
        travel.go(text, besideOf(source), travel.pointOf(paper), [paper], -0.18, travel.pointOf(paper, 0.5, 0));
    },
    read(text, source, target) {
        const [first, last] = [page.before, page.shown].map(({ rowsLeft }) => page.rows.length - rowsLeft);
        arrive(text, travel.pointOf(tape.boxOf(first, last - 1), 0.5, 0.9), target, 0.12);
    },
    added(text, source) {
        const number = by('accNumber');
        travel.go(text, besideOf(source), travel.pointOf(number), [number], 0.12, travel.pointOf(number, 0.5, 0));
    },
    taken(text, source) {
        const times = by('times');
        travel.go(text, besideOf(source), travel.pointOf(times), [times], -0.1, travel.pointOf(times, 0.5, -0.2));
    },
    multiplied() {
        const [times, lamps] = [by('times'), by('accLamps')];
        travel.go(`\u00d7 ${times.textContent}`, travel.pointOf(times, 0.5, 0), travel.pointOf(lamps, 0.1, 0.5), [], -0.06);
    },
    stored(text, source, target) {
        arrive(text, travel.pointOf(by('accNumber'), 0.5, 0), target, 0.12);
    },
    shifted(text, source, target, shift) {
        if (by('accLamps').offsetWidth > 0) { // read as digits, it has no lamps
            travel.shift(by('accLamps'), shift);
        }
    },
    jumped(text, source, target) {
        jump(source, target);
    },
};
const FROM_ROW = ['printed', 'added', 'taken'], TO_ROW = ['read', 'stored'];

// Shows what moved; of a picture that is only drawn again the trails alone.
function playMoves(isAgain = false) {
    travel.isAgain = isAgain;
    for (const { kind, text, from, to, by: shift } of page.moves) {
        const [source, target] = [from, to].map((place) => lens.rowOf(place));
        if (!(FROM_ROW.includes(kind) && !source) && !(TO_ROW.includes(kind) && !target)) {
            WAYS[kind](text, source, target, shift);
        }
    }
}

// The gap in a row beside its order, where a trail begins or ends.
const besideOf = (row) => travel.pointOf(lens.boxOf(row, 2), row.cells.length > 3 ? 0.88 : 0);

// A text comes to the order of a row; its trail ends beside it.
function arrive(text, from, row, bend) {
    const to = row.cells.length > 3 ? travel.pointOf(lens.boxOf(row, 2), 0.35) : besideOf(row);
    travel.go(text, from, to, [...row.cells].slice(1), bend, besideOf(row));
}

// An arrow from order to order, at the left of the lens. An order that the lens doesn't show is beyond its edge.
function jump(source, target) {
    const box = by('lens').parentElement.getBoundingClientRect();
    const edge = { left: box.left, width: 0, top: target ? box.top : box.bottom, height: 0 };
    const [from, to] = [source, target].map((row) => travel.pointOf(row ? lens.boxOf(row, 0) : edge, 0.12));
    const bend = Math.min(0.22, (2 * letterHigh()) / Math.abs(to[1] - from[1])); // it stays within the window
    travel.trail(wayOf(from, to, from[1] < to[1] ? bend : -bend));
}

if (typeof module !== 'undefined') {
    module.exports = { movesOf };
}
