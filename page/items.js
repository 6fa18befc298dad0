'use strict';
// What a story says of the tape and of the program: of an item of the tape, which is what the loader reads between two
// pictures in which it waits for the next one, and of an order of the program.
const OBEYED = 600; // orders of the program, at most, that are tried to see which words are obeyed

// The place in an order's address.
const addressOf = (word) => page.machine.meaning(word, page.program.small).location;

// The item that was read between two pictures, as its rows are labelled.
const itemBetween = (from, to) => page.labels.slice(page.rows.length - from.rowsLeft, page.rows.length - to.rowsLeft).join('');

// What the machine says of that item: whether it placed a word, and where.
const foundBetween = (from) => page.items.find(({ first }) => first === page.rows.length - from.rowsLeft);

// What is said of an item, and what became of it.
function itemSaid(from, to) {
    const item = itemBetween(from, to), found = foundBetween(from);
    if (found && found.location !== undefined) {
        return placedSaid(item, found, to);
    }
    if (to.counter >= placesOf(page.program.kind)) {
        return ['told.enter', { item }];
    }
    return /^T\d+K$/.test(item) ? ['told.from', { item, place: item.slice(1, -1) }]
        : /^E\d*[KZ]$/.test(item) ? ['told.entry', { item, place: addressOf(to.words[22]) }]
            : item === 'GK' ? ['told.theta', { item, place: addressOf(to.words[42]) }] : ['told.control', { item }];
}

// The place that an item is about: that of its word, the one in the loader that it changes, or the entry.
function placeOfItem(from, to) {
    const item = itemBetween(from, to), found = foundBetween(from);
    return found && found.location !== undefined ? found.location
        : to.counter >= placesOf(page.program.kind) ? to.counter
            : item === 'GK' ? 42 : /^T\d+K$|^E\d*[KZ]$/.test(item) ? 22 : undefined;
}

// What is said of an item that places a word. The first of May 1949 names the place after the last word.
function placedSaid(item, { first, location, word }, to) {
    if (first === 0 && page.program.kind === 'tape1') {
        return ['told.first1', { item, place: addressOf(word) - 1 }];
    }
    const order = orderText(word);
    const key = order === item ? 'told.stored' : 'told.landed';
    return [key, () => ({ item, order, place: location, later: laterOf(location, word, to) })];
}

// What a word that has come into the store is for: its number, the code that is printed, or the order that will be obeyed.
// Of any other word nothing is said.
function laterOf(place, word, shown) {
    const { machine, words, program } = page;
    const meant = machine.meaning(word, program.small);
    if (Math.abs(meant.number) < LEAST_ORDER) {
        return words.say('later.number', { number: words.number(meant.number) });
    }
    if (codePlaces(shown.words, placesOf(program.kind), (one) => machine.meaning(one, program.small)).has(place)) {
        return words.say('later.code', { code: codeText(word >> CODE_DIGITS) });
    }
    return ordersObeyed().get(place) === word ? words.brief(meant, 'later') : '';
}

// The places of the program's first orders, as the machine shows them, each with the word that is obeyed there for the first
// time.
function ordersObeyed() {
    const { way } = page;
    if (way.obeyed === undefined) {
        way.obeyed = new Map();
        let shown = pictureAt(entryAfter(0));
        for (let k = 0; k < OBEYED && shown.ending === 'limit'; k++) {
            if (!way.obeyed.has(shown.counter)) {
                way.obeyed.set(shown.counter, shown.words[shown.counter]);
            }
            shown = pictureAt(shown.orders + 1, shown);
        }
    }
    return way.obeyed;
}

// The number of orders after which the loader has ended, found by bisection: before it the counter is in the loader.
function entryAfter(from) {
    const hasLeft = (orders) => {
        const shown = pictureAt(orders);
        return shown.ending !== 'limit' || shown.counter >= placesOf(page.program.kind);
    };
    if (hasLeft(from)) {
        return from;
    }
    let [low, high] = [from, 2 * from + 64];
    while (!hasLeft(high) && high < TRIED) {
        [low, high] = [high, 2 * high];
    }
    while (high - low > 1) {
        const middle = Math.floor((low + high) / 2);
        [low, high] = hasLeft(middle) ? [low, middle] : [middle, high];
    }
    return high;
}

// What is said of an order of the program that was obeyed between two pictures.
function orderSaid(from, to) {
    const printed = printedBetween(from, to);
    if (printed) {
        return ['told.printed', { text: printed }];
    }
    const place = changedPlaces(from, to).find((one) => isOwnOrder(from, to, one, page.machine));
    if (place !== undefined) {
        return ['told.changed', { place, old: orderText(from.words[place]), now: orderText(to.words[place]) }];
    }
    const word = from.words[from.counter], meant = page.machine.meaning(word, page.program.small);
    return ['told.order', () => ({ order: orderText(word), meaning: page.words.meaning(meant) })];
}
