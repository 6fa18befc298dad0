'use strict';
// The parts of an item of the tape while the loader reads it: the letter, the digits and the sign at its end, each with what
// the loader makes of it. The digits and the words come from the machine; nothing here adds them up.

const THETA = 42; // the place in which the loader keeps where the program begins

// The parts of an item: the first row, the digits after it, and the sign that ends it, each with the row after it.
function partsOfItem(labels, { first, after }) {
    const letter = labels[first], end = labels[after - 1];
    const digits = labels.slice(first + 1, after).filter((label) => /^\d$/.test(label)).join('');
    const parts = [{ key: 'letter', sign: letter, read: first + 1 }];
    if (digits) {
        parts.push({ key: 'digits', sign: digits, read: first + 1 + digits.length });
    }
    if (after - 1 > first && !/^\d$/.test(end)) {
        parts.push({ key: { '@': 'theta', F: 'short', S: 'short', D: 'long', L: 'long' }[end] || 'other', sign: end, read: after });
    }
    return parts;
}

// Shows the parts of the item that a story has the loader read; those that are read already stand out.
function drawParts() {
    const { tour, items, labels, rows, shown, words } = page;
    const item = tour && tour.watched !== undefined ? items.find(({ first }) => first === tour.watched) : undefined;
    by('parts').hidden = item === undefined;
    if (item === undefined) {
        return;
    }
    const at = rows.length - shown.rowsLeft;
    by('parts').replaceChildren(...partsOfItem(labels, item).map(({ key, sign, read }) => {
        const part = document.createElement('span'), name = document.createElement('b');
        name.textContent = sign;
        part.className = read <= at ? 'read' : '';
        part.append(name, ` ${words.say(`parts.${key}`, { sign, number: Number(sign), place: addressOf(shown.words[THETA]) })}`);
        return part;
    }));
}
if (typeof module !== 'undefined') {
    module.exports = { partsOfItem };
}
