'use strict';
// A copy of a tape with another word for one place. It is a tape as any other: the machine reads it from Start.

// The rows of a tape as its text, from one row to another: a blank between items.
function textOfRows(labels, items, from, to) {
    const ends = new Set(items.map(({ after }) => after));
    return labels.slice(from, to).map((label, k) => (ends.has(from + k + 1) ? `${label} ` : label)).join('');
}

// The text of a tape that places another word: its item is replaced, or one is put before the entry, which is the last
// two items. A tape of May 1949 has an item for each of its places, and none can be added. Undefined if there is no way.
function copyOf(labels, items, kind, place, order) {
    const text = (from, to) => textOfRows(labels, items, from, to);
    const old = items.filter(({ location }) => location === place).pop();
    if (old) {
        return `${text(0, old.first)}${order} ${text(old.after, labels.length)}`.trim();
    }
    const entry = items[items.length - 2];
    if (kind === 'tape1' || !entry || labels[entry.first] !== 'E') {
        return undefined;
    }
    return `${text(0, entry.first)}T${place}K${order} ${text(entry.first, labels.length)}`.trim();
}

// The program of a copy, if the loader would place this very word there.
function copyWith(place, word) {
    const { program, labels, items, machine, words } = page;
    const kind = program.kind === 'tape1' ? 'tape1' : 'tape';
    const order = writtenFor(kind, machine.order(word));
    const text = copyOf(labels, items, kind, place, order);
    if (text === undefined) {
        return undefined;
    }
    const copy = { text: `[${words.say('copySays', { place, order })}]\n${text}\n`, kind, small: program.small };
    const placed = machine.items(copy);
    const last = placed.items.filter(({ location }) => location === place).pop();
    return placed.status === 0 && last && last.word === word ? copy : undefined;
}

if (typeof module !== 'undefined') {
    module.exports = { copyOf };
}
