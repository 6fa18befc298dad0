'use strict';
// The boxes below the machine: the store in figures, the last orders, a post-mortem, the listing.
const LOOKED = ['order', 'whole', 'fraction', 'digits']; // how the words of a tank are read if no other way was chosen

// The table of a tank's locations.
function drawLook() {
    if (!by('lookBox').open || !isAlive()) {
        return;
    }
    const { shown, words } = page;
    if (by('follow').getAttribute('aria-pressed') === 'true') {
        by('tank').value = String(shown.counter >> 5);
    }
    const first = 32 * Number(by('tank').value);
    const forms = formNow() === FORMS[0] ? LOOKED : [formNow()];
    const row = (place) => {
        const here = place === shown.counter ? ' class="here" aria-current="true"' : '';
        return `<tr${here}><th scope="row">${place}${forms.map((form) => `<td>${escaped(wordText(shown.words[place], form))}`).join('')}`;
    };
    const heads = [words.say('lookPlace'), ...forms.map((form) => words.say(`forms.${form}`))];
    const head = heads.map((text) => `<th scope="col">${escaped(text)}`);
    by('look').innerHTML = `<tr>${head.join('')}${Array.from({ length: 32 }, (_, k) => row(first + k)).join('')}`;
}

function follow(on) {
    by('follow').setAttribute('aria-pressed', String(on));
}

function tanks() {
    const count = textNow().small ? 16 : 32;
    const nameOf = (tank) => page.words.say('placesFrom', { first: 32 * tank, last: 32 * tank + 31 });
    fill('tank', Array.from({ length: count }, (_, tank) => [String(tank), nameOf(tank)]));
}

function more() {
    by('moreBox').open = true;
    by('moreBox').scrollIntoView();
    by('moreBox').firstElementChild.focus();
}

// The orders that were obeyed last, with their locations.
function drawTrace() {
    if (!by('traceBox').open || !isAlive() || page.running || page.tour) {
        return;
    }
    const { orders } = page.shown, first = Math.max(0, orders - 12);
    const lineOf = ({ words, counter, orders: done }) => [
        page.words.number(done + 1).padStart(9), String(counter).padStart(4), orderText(words[counter])].join('  ');
    const lines = [];
    for (let shown = pictureAt(first); lines.length < orders - first; shown = pictureAt(shown.orders + 1, shown)) {
        lines.push(lineOf(shown));
    }
    by('trace').textContent = lines.join('\n');
}

// Prints the words at some locations of the machine that is shown, as the post-mortem does.
function printPostMortem() {
    const [first, count] = ['pmFirst', 'pmCount'].map((id) => Math.max(0, Math.floor(Number(by(id).value)) || 0));
    const told = page.machine.postMortem(page.way, page.shown, first, count);
    by('pm').textContent = told.text.replace(/\r/g, '').trim();
    const last = (page.program.small ? 512 : 1024) - 1;
    const key = told.status === 0 ? 'pmSaid' : told.status === 3 ? 'pmRefused' : `ends.${told.ending}`;
    sayAt('pmSaid', () => page.words.say(key, { orders: page.words.number(page.shown.orders), last }));
}

// What a post-mortem printed is of one picture alone.
function drawPostMortem() {
    by('pmPrint').disabled = !isAlive() || page.program.kind === 'tape1'; // it is a tape for the 41 orders
    by('pm').textContent = '';
    sayAt('pmSaid');
}

function drawListing() {
    if (!by('listingBox').open) {
        return;
    }
    if (page.program.kind !== 'source') {
        by('listing').textContent = page.words.say('noListing');
        return;
    }
    const told = page.machine.listing(page.program);
    const text = new TextDecoder().decode(told.out) || told.note;
    by('listing').replaceChildren(...text.match(/[^\n]*\n?/g).map((line) => {
        const span = document.createElement('span');
        span.textContent = line;
        span.dataset.place = parseInt(line, 10);
        return span;
    }));
    markListing();
}

// Marks the line of the listing at which the machine is.
function markListing() {
    if (by('listingBox').open && isAlive()) {
        by('listing').querySelectorAll('span').forEach((line) => {
            line.classList.toggle('here', line.dataset.place === String(page.shown.counter));
        });
    }
}
