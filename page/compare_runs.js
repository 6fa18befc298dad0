'use strict';
// Compares the pictures of a run with what the program reports of it: at some counts of orders, gone on to and back, with
// every word of the store, and with post-mortems.
const { NO_CODE } = require('./machine.js');
const { Way } = require('./way.js');
const { COMMANDS, storeOf } = require('./compare_beside.js');

// What the program reports of a run that ends after a number of orders, beside the picture there.
function compareRun(beside, name, text, orders, resumes) {
    const { machine, program, same } = beside;
    const size = text.kind === 'tape1' ? [] : storeOf(text.small);
    const told = program([COMMANDS[text.kind], '--limit', String(orders), '--resume', String(resumes), ...size], text.text);
    const shown = machine.picture(text, orders, resumes);
    beside.count.pictures++;
    beside.seen.set(shown.ending, (beside.seen.get(shown.ending) || 0) + 1);
    const what = `${name} after ${orders}`;
    same(`${what}: status`, shown.status, told.status);
    same(`${what}: note`, shown.note, told.note);
    same(`${what}: paper`, shown.paper || '', told.out);
    same(`${what}: blocks in use`, Number(machine.exports.blocks()), 0);
    return shown;
}

const parts = ['status', 'orders', 'counter', 'acc', 'multiplier', 'rowsLeft', 'last'];

// A picture reached from another one, beside the one from Start.
function compareGone(beside, what, shown, wanted) {
    const { machine, same } = beside;
    same(what, parts.map((part) => shown[part]).join(), parts.map((part) => wanted[part]).join());
    same(`${what}: words`, shown.words.join(), wanted.words.join());
    same(`${what}: digits`, shown.digits.join(), wanted.digits.join());
    same(`${what}: paper`, shown.way.text(0, shown.printed), wanted.paper);
    same(`${what}: blocks in use`, Number(machine.exports.blocks()), 0);
    beside.count.gone++;
}

// Continuing in pieces, from each count to the next, and back to it from Start; then past two stops.
function compareGoing(beside, name, text, counts) {
    const { machine, same } = beside;
    const way = new Way(machine, text, machine.rows(text).out);
    let near = way.first;
    for (const count of [0, ...counts]) {
        const wanted = machine.picture(text, count);
        near = way.at(count, near);
        compareGone(beside, `${name} gone on to ${count}`, near, wanted);
        compareGone(beside, `${name} gone to ${count}`, way.at(count), wanted);
        const half = Math.floor(near.printed / 2);
        same(`${name} gone on to ${count}: the end of its paper`, way.text(0, half) + way.text(half, near.printed), wanted.paper);
    }
    for (let stops = 1; stops <= 2 && near.ending === 'stopped'; stops++) {
        way.stops.add(near.orders);
        const count = near.orders + 500;
        near = way.at(count, near);
        compareGone(beside, `${name} gone past ${stops} stops`, near, machine.picture(text, count, stops));
    }
    [...way.stops].forEach((stop, k) => compareGone(beside, `${name} gone back to stop ${k}`, way.at(stop), machine.picture(text, stop, k)));
}

// Words of the small store after a count of orders, beside the program's post-mortem, which prints those from 144
// upwards as orders. A word whose function is not a letter moves its paper, and has no line.
function compareSmall(beside, name, text, counts) {
    const { machine, program, same } = beside;
    for (const count of counts.slice(-3)) {
        const shown = machine.picture(text, count);
        const orders = [...shown.words.slice(144, 512)].map((word) => machine.order(word));
        same(
            `${name} after ${count}: places that the small store doesn't have`,
            shown.words.slice(512).some((word) => word !== 0),
            false,
        );
        beside.count.pictures++;
        if (orders.some((order) => '#*.@!&'.includes(order[0]))) {
            continue;
        }
        const told = program([COMMANDS[text.kind], '--limit', String(count), '--post-mortem', '144,368', ...storeOf(true)], text.text);
        const wanted = orders.map((order) => order.replace(/^.(?=[FD])/, '$&0')).join('\n');
        same(`${name} after ${count}: words`, told.out.replace(/\r/g, '').trimEnd().slice(-wanted.length), wanted);
        beside.count.small++;
    }
}

// A post-mortem of the picture after a count of orders, beside the program's after the same run.
function comparePostMortem(beside, name, text, way, count) {
    const { machine, program, same } = beside;
    const last = text.small ? 512 : 1024;
    const shown = way.at(count);
    for (const [first, words] of [[144, last - 144], [200 + (count % 100), 9]]) {
        const told = program([COMMANDS[text.kind], '--limit', String(count), '--post-mortem', `${first},${words}`, ...storeOf(text.small)], text.text);
        const found = machine.postMortem(way, shown, first, words);
        same(`${name} after ${count}: post-mortem of ${first}`, `${way.text(0, shown.printed)}${found.text}`, told.out);
        same(`${name} after ${count}: post-mortem of ${first}: status`, found.status, 0);
        beside.count.printed++;
    }
    for (const [first, words] of [[143, 1], [last, 1], [144, last - 143], [0, 0], [70000, 1]]) {
        same(`${name} after ${count}: no post-mortem of ${first}`, machine.postMortem(way, shown, first, words).status, 3);
    }
    same(`${name} after ${count}: blocks in use after a post-mortem`, Number(machine.exports.blocks()), 0);
}

// The whole state after a number of orders, beside what the program's sessions show.
function compareStates(beside, name, text, counts) {
    const { machine, program, same } = beside;
    if (text.small) {
        compareSmall(beside, name, text, counts); // a session has the whole store
        return;
    }
    const script = counts.map((count, i) => `go ${count - (i ? counts[i - 1] : 0)}\nshow 0 1023\nshow acc\nshow mult\nshow last\n`).join('');
    const told = program(['step', '--limit', '100000000'], `${script}${text.kind}\n${text.text}`);
    const way = new Way(machine, text, machine.rows(text).out);
    const moves = told.out.split(/^(?=at )/m);
    same(`${name}: moves`, moves.length, counts.length);
    moves.forEach((move, i) => {
        const lines = move.trimEnd().split('\n');
        const shown = way.at(counts[i]);
        const what = `${name} after ${counts[i]}`;
        const [, counter, orders] = lines[0].match(/^at (\d+) after (\d+): /) || [];
        same(`${what}: counter`, shown.counter, Number(counter));
        same(`${what}: orders`, shown.orders, Number(orders));
        const store = Array.from(shown.words, (word, place) => `${String(place).padStart(4)} ${String(word).padStart(6)} ${machine.order(word)}`);
        same(`${what}: store`, store.join('\n'), lines.slice(1, 1025).join('\n'));
        same(`${what}: accumulator`, `acc ${shown.acc}`, lines[1025]);
        same(`${what}: multiplier`, `mult ${shown.multiplier}`, lines[1026]);
        same(`${what}: last printed`, `last ${shown.last === NO_CODE ? 'none' : shown.last}`, lines[1027]);
        beside.count.pictures++;
    });
}

module.exports = { compareRun, compareGoing, comparePostMortem, compareStates };
