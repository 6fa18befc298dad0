'use strict';
// Tries the page in a real browser as a visitor does.
//   node page/browse.js BROWSER PAGE.html FOLDER [PART]      FOLDER takes the pictures
// PART is the name of a part of page/tried.js, or several with commas between them, or a share such as 2/4.
const { Visitor } = require('./visitor.js');
const { IN_CHROMIUM, partsFor, tryParts } = require('./tried.js');

const [command, file, folder, asked] = process.argv.slice(2);
const parts = partsFor(IN_CHROMIUM, asked);
const b = new Visitor(command, file, folder);

// Opens the page. The module that it takes, by what the browser can run.
async function open() {
    await b.open('');
    if (await b.ask(`MODULES.wide !== '' && hasWideMemories()`)) {
        return 'wide';
    }
    console.log('the page with wide memories: not tried, since this browser has none');
    await b.open('#narrow');
    return 'narrow';
}

(async () => {
    const chosen = await open();
    await b.expect('the module that the page chose', await b.ask('document.body.dataset.ready'), chosen);
    await tryParts(b, parts, chosen);
    await b.expect(
        'nothing is loaded',
        b.requested.filter((url) => !url.startsWith('file:') && !url.startsWith('data:')),
        [],
    );
    await b.expect(
        'nothing is thrown, and the policy stops nothing of the page',
        b.said.filter((said) => !said.includes('Content Security Policy')),
        [],
    );
    const version = await b.ask('navigator.userAgent.match(/Chrome.[0-9.]+/)[0]');
    console.log(`the page in ${version}: ${parts.length} parts, ${b.tried} tries, ${b.wrong} faults`);
    await b.close();
    process.exit(b.wrong ? 1 : 0);
})();
