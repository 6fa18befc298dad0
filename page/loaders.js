'use strict';
// What each order of the two loaders is for: below the lens while a loader works, and as a page to read and to print. The
// texts are in loaders/*.json, each order with its own.

// The loader that reads a text of a kind; the tape of a source is read by the 41 orders.
const loaderOf = (kind) => (kind === 'tape1' ? 'tape1' : 'tape');

// What the loader's order at a place is for.
const commentOf = (place) => LOADERS[page.words.name][loaderOf(page.program.kind)][place][1];

// The page of both loaders, order by order.
function drawLoaders() {
    const say = (key) => escaped(page.words.say(key));
    const head = ['lookPlace', 'worksheetOrder', 'loaderFor'].map((key) => `<th scope="col">${say(key)}`).join('');
    const row = ([order, reason], place) => `<tr><th scope="row">${place}<td><code>${order}</code><td>${escaped(reason)}`;
    by('loaders').innerHTML = Object.entries(LOADERS[page.words.name]).map(([kind, orders]) => (
        `<h3>${say(`loaders.${kind}`)}</h3><table><tr>${head}${orders.map(row).join('')}</table>`)).join('');
}
