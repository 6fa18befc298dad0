'use strict';
// What is said of each order of the loaders: beside the listings of the crates, beside docs/LOADING.md, below the lens, and
// on a page of its own.
const fs = require('fs');
const path = require('path');

const TOP = path.join(__dirname, '..');
const LISTINGS = { tape: 'crates/ed_initial/specs/Listing.antt', tape1: 'crates/ed_initial1/specs/Listing.antt' };
const NAMES = { subtract: 'S', left: 'L' }; // letters that the listing of May 1949 has under other names
const LONGEST_REASON = 11; // words

const readTop = (file) => fs.readFileSync(path.join(TOP, file), 'utf8');

// An order as the page writes it: no blanks, and no address 0.
const written = (letter, address, length) => `${NAMES[letter] || letter}${address === '0' ? '' : address}${length}`;

// The orders of a listing.
const listed = (text) => [...text.matchAll(/listed_order (\w+) (\d+) ([FDSL])\b/g)].map(([, ...parts]) => written(...parts));

// The rows of the tables of docs/LOADING.md whose second cell is an order: the order and what it is for.
const tabled = (text) => [...text.matchAll(/^\| \d+ \| ([A-Z]) (\d+) ([FDSL]) \| ([^|]*) \|/gm)]
    .map(([, letter, address, length, reason]) => [written(letter, address, length), reason.trim()]);

// The texts beside the listings and the page for engineers; `same` takes what is tried, what is there and what is wanted.
function texts(same) {
    const folder = path.join(__dirname, 'loaders');
    const languages = fs.readdirSync(path.join(__dirname, 'languages')).map((file) => file.slice(0, -5));
    same('each language says what the loaders\' orders are for', fs.readdirSync(folder), languages.map((name) => `${name}.json`));
    for (const name of languages) {
        const said = JSON.parse(fs.readFileSync(path.join(folder, `${name}.json`), 'utf8'));
        for (const [kind, listing] of Object.entries(LISTINGS)) {
            same(`${name}, ${kind}: the orders of the listing`, said[kind].map(([order]) => order), listed(readTop(listing)));
            const reasons = said[kind].map(([, reason]) => reason);
            same(`${name}, ${kind}: each has a sentence`, reasons.filter((one) => !/[a-z].*[.?]$/.test(one)), []);
            same(`${name}, ${kind}: a short one`, reasons.filter((one) => one.split(' ').length > LONGEST_REASON), []);
        }
    }
    const english = JSON.parse(fs.readFileSync(path.join(folder, 'en.json'), 'utf8'));
    same('docs/LOADING.md says the same', tabled(readTop('docs/LOADING.md')), [...english.tape, ...english.tape1]);
}

// The lens while the loaders run: what each order is for, on one line.
async function loaders(b) {
    await b.size(1280, 720);
    for (const language of ['en', 'de']) {
        await b.ask(`speakIn('${language}'); 0`);
        for (const [kind, example] of [['tape', 'letter.tape'], ['tape1', 'squares.tape1']]) {
            await b.choose(example);
            const told = await b.run((one) => LOADERS[page.words.name][one].map(([order, reason], place) => {
                drawNote(place);
                const isOneLine = by('note').offsetHeight < 1.5 * letterHigh() && by('note').scrollWidth <= by('note').clientWidth;
                const isSaid = by('note').textContent === reason && orderText(page.shown.words[place]) === order;
                return isSaid && isOneLine ? '' : `${place} ${reason}`;
            }).filter(Boolean), kind);
            await b.expect(`${language}, ${kind}: the machine has these orders, and the lens says what each is for`, told, []);
        }
    }
    await b.ask('speakIn("en"); 0');
    await b.choose('letter.tape');
    await b.expect('at Start, of the first order', await b.text('note'), 'Empty the accumulator. Later: the number so far.');
    await b.set('at', '48');
    await b.expect('then of the order just obeyed', [await b.ask('page.before.counter'), await b.text('note')],
        [25, 'Into 22: it says where the next word goes.']);
    await b.set('at', '192');
    await b.expect('an order of the program has none', await b.text('note'), 'Touch a row to open its word.');
    await b.expect('the page of the loaders', await b.run(() => {
        by('loaderBox').open = true;
        const rows = [...by('loaders').querySelectorAll('table')].map((table) => table.rows.length - 1);
        const [place, order, reason] = [...by('loaders').querySelectorAll('tr')[23].cells].map((cell) => cell.textContent);
        by('loaderBox').open = false;
        return [rows, place, order, reason];
    }), [[41, 31], '22', 'T43F', 'Store the word. As an E: start the program.']);
    await b.ask('preparePrint("loaders"); 0');
    await b.send('Emulation.setEmulatedMedia', { media: 'print' });
    await b.expect('and it is printed', await b.run(() => [
        getComputedStyle(document.querySelector('main')).display, by('printed').querySelectorAll('tr').length,
    ]), ['none', 74]);
    await b.send('Emulation.setEmulatedMedia', { media: '' });
    await b.ask('afterPrint(); 0');
    await b.unsize();
}

module.exports = { texts, loaders };
