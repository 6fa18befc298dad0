'use strict';
// Tries the page's own rules without a browser: the sentence of each order in each language, the hints, the figures of a
// tape, the signs that are marked, the names that are printed.
//   node page/units.js
const fs = require('fs');
const path = require('path');
const { Words, printedBetween } = require('./words.js');
const { packed, unpacked, LONGEST } = require('./share.js');
const { STORIES } = require('./stories.js');
const { kioskAsked } = require('./kiosk.js');
const { course } = require('./tried_course.js');
const { texts } = require('./tried_loaders.js');
const { orders } = require('./units_orders.js');
const { tapes } = require('./units_tapes.js');
const { changes } = require('./units_changes.js');
const rules = require('./units_text.js');
const { bench } = require('./units_bench.js');
const { shares } = require('./units_shares.js');

Object.assign(globalThis, { printedBetween, ...require('./hints.js') }); // the page's scripts are one script
let count = 0, wrong = 0;

function same(what, got, wanted) {
    count++;
    if (JSON.stringify(got) !== JSON.stringify(wanted)) {
        wrong++;
        console.log(`WRONG ${what}: ${JSON.stringify(got)}, and not ${JSON.stringify(wanted)}`);
    }
}

const languages = Object.fromEntries(fs.readdirSync(path.join(__dirname, 'languages')).map((file) => (
    [file.slice(0, -5), new Words(file.slice(0, -5), JSON.parse(fs.readFileSync(path.join(__dirname, 'languages', file), 'utf8')))])));

orders(same, languages);
changes(same, languages.en);
rules.hints(same, languages);
rules.addresses(same);
rules.titles(same);
tapes(same);
texts(same);
course(same);
bench(same, languages);
shares(same);

// What a kiosk's address asks for.
const usual = { seconds: 90, between: 12, stories: ['letter', 'disc'], isQuiet: false, isStage: false };
for (const [asked, wanted] of [
    ['', {}], ['60,quiet', { seconds: 60, isQuiet: true }], ['quiet, 5', { seconds: 10, isQuiet: true }], ['99999', { seconds: 3600 }],
    ['story=disc', { stories: ['disc'] }], ['60,story=disc,story=letter,story=none', { seconds: 60, stories: ['disc', 'letter'] }],
    ['pause=0,stage', { between: 1, isStage: true }], ['pause=40,90', { between: 40 }], ['-5,pause=x,story=', {}],
]) {
    same(`a kiosk: ${asked}`, kioskAsked(asked, ['letter', 'disc']), { ...usual, ...wanted });
}

// What a story says is proved is what the table of docs/PROGRAMS.md has of its program, with the same numbers in each
// language.
const PROVED = {
    changes: '1 to 40 capital letters', sum: 'sum is below 65,536', first: 'squares from 1 to 81', mirror: '1 to 9 capital letters',
};
const programs = fs.readFileSync(path.join(__dirname, '../docs/PROGRAMS.md'), 'utf8');
const proved = STORIES.filter(({ isProved }) => isProved);
same('the stories of proved programs', proved.map(({ name }) => name), Object.keys(PROVED));
for (const { name, example } of proved) {
    const row = programs.split('\n').find((line) => line.startsWith(`| \`examples/${example}\` |`)) || '';
    const [english, german] = ['en', 'de'].map((language) => languages[language].say(`proved.${name}`));
    same(`${example} has its row, with ${PROVED[name]}`, [row, english].map((text) => text.includes(PROVED[name])), [true, true]);
    const [one, two] = [english.replace(/,(?=\d{3})/g, ''), german.replace(/\.(?=\d{3})/g, '')].map((text) => text.match(/\d+/g));
    same(`${name}: the same numbers in both languages`, one, two);
}
same('the orders of the table of squares', programs.includes('`stopped at 61 after 1855`'), true);

// Whether no more of a link is unpacked than a text may have.
async function takenOf(letters) {
    const { prototype } = ReadableStreamDefaultReader, { read } = prototype;
    let taken = 0;
    prototype.read = async function reads() {
        const part = await read.call(this);
        taken += part.done ? 0 : part.value.length;
        return part;
    };
    await unpacked(letters);
    prototype.read = read;
    return taken < 3 * LONGEST;
}

(async () => {
    for (const text of ['', 'T64K GK', 'ÄÖÜ \u{1F600}\n'.repeat(2000)]) {
        const shared = { kind: 'tape', small: true, orders: 7, text };
        same(`a link of ${text.length} characters there and back`, await unpacked(await packed(shared)), shared);
    }
    const first = { kind: 'tape1', small: false, orders: 7, text: 'T35S' };
    same('a link of a tape of May 1949', await unpacked(await packed(first)), first);
    same(
        'a link that would fill the memory',
        await unpacked(await packed({ kind: 'tape', small: false, orders: 0, text: 'A'.repeat(600000) })),
        undefined,
    );
    same('and that is given up early', await takenOf(await packed({ kind: 'tape', small: false, orders: 0, text: 'A'.repeat(9000000) })), true);
    for (const bad of ['', '1', '1AAAA', `0${btoa('["odd",0,1,"x"]')}`, '0e30', '0bnVsbA', `0${btoa('["tape",0,1.5,"x"]')}`]) {
        same(`no link: ${bad}`, await unpacked(bad), undefined);
    }
    console.log(`the page's own rules: ${count} tried, ${wrong} faults`);
    process.exit(wrong ? 1 : 0);
})();
