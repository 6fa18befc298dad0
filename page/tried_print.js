'use strict';
// What is printed, by its buttons and by the browser's own command: programs are whole, no box is empty, and each has its name.
const fs = require('fs');
const { press, write, goTo, everywhere } = require('./hand.js');

const SHEET = [718, 1043]; // pixels of a sheet of A4 between its margins
const ORDERS = Array.from({ length: 300 }, (_, k) => `A ${k + 1} F ; line ${k + 1}`);
const LONG = `; Adds many words.\nsegment long\n${ORDERS.join('\n')}\nZ F\nenter long\n`;

// What is seen of a print: whether the page itself is hidden, what is cut off, what is empty, and the name of the document.
function lookAtPrint() {
    const all = [...by('printed').querySelectorAll('*')];
    const isText = (node) => !node.closest('svg, table'); // a worksheet's table is filled in by hand
    return {
        isAlone: getComputedStyle(document.querySelector('main')).display === 'none' && by('printed').checkVisibility(),
        cut: all.filter((node) => isText(node) && getComputedStyle(node).display !== 'inline'
            && (node.scrollHeight > node.clientHeight + 2 || node.scrollWidth > node.clientWidth + 2)).map((node) => node.tagName),
        empty: all.filter((node) => isText(node) && node.checkVisibility() && node.textContent.trim() === '' && node.getBoundingClientRect().height > 0)
            .map((node) => node.tagName),
        name: document.title, heads: all.filter(({ tagName }) => /^H[12]$/.test(tagName)).map((node) => node.textContent),
        programs: [...by('printed').querySelectorAll('pre')].map((node) => node.textContent),
    };
}

// Does something, and looks at what is then ready to be printed.
async function printOf(b, does) {
    await b.ask('window.print = () => {}; 0');
    await does();
    const [wide, high] = await b.ask('[innerWidth, innerHeight]');
    await b.send('Emulation.setEmulatedMedia', { media: 'print' });
    await b.size(...SHEET);
    const seen = await b.run(lookAtPrint);
    await b.send('Emulation.setEmulatedMedia', { media: '' });
    await b.size(wide, high, wide < SHEET[0]);
    await b.ask('afterPrint(); 0');
    return seen;
}

// Prints something of an example on each screen and in each language.
async function printedOf(b, address, does) {
    await everywhere(b, async (language, where, kind) => {
        await goTo(b, address);
        await b.ask('document.querySelectorAll("details").forEach((box) => { box.open = false; }); 0');
        await does(where, kind);
        await b.ask('editor.isOwn = false; document.querySelectorAll("details").forEach((box) => { box.open = false; }); 0');
        await goTo(b, '#view=exhibit');
    });
    await b.choose('letter.tape');
}

async function printed(b) {
    await printedOf(b, '#example=decimals.edsac', async (where, kind) => {
        await b.click('isSource');
        for (const [text, name] of [['', 'decimals.edsac'], [LONG, 'Adds many words']]) {
            await (text && b.type(text)); // a press into the box and keys for each of its lines take a minute
            const whole = await b.ask('by("text").value');
            const prints = {
                'a worksheet': () => press(b, '#printWorksheet', kind), 'the page': () => b.ask('dispatchEvent(new Event("beforeprint")); 0'),
            };
            for (const [what, does] of Object.entries(prints)) {
                const { isAlone, cut, empty, name: called, heads, programs } = await printOf(b, does);
                await b.expect(
                    `${where}, ${what} of ${name}: it is alone, whole, and nothing is empty`,
                    [isAlone, cut, empty],
                    [true, [], []],
                );
                await b.expect(
                    `${where}, ${what} of ${name}: its name`,
                    [called, heads[0].endsWith(name)],
                    [name, true],
                );
                await b.expect(`${where}, ${what} of ${name}: all of the program`, programs[0] === whole, true);
            }
        }
        await b.expect(
            `${where}: the name of the page afterwards`,
            await b.ask('document.title === page.words.say("title")'),
            true,
        );
    });
    const { data } = await b.send('Page.printToPDF', { paperWidth: 8.27, paperHeight: 11.69 });
    fs.writeFileSync(`${b.folder}/page.pdf`, Buffer.from(data, 'base64'));
}

async function printedBoxes(b) {
    await printedOf(b, '#lesson=3&example=hello.edsac', (where) => boxes(b, where));
}

async function printedTape(b) {
    await printedOf(b, '#example=hello.edsac', (where, kind) => strip(b, where, kind));
}

// The sheets are printed by their buttons, each with its name.
async function printedSheets(b) {
    await b.ask('window.prints = []; window.print = () => window.prints.push(document.body.dataset.print); 0');
    for (const [box, button, what, says] of [['sheetBox', 'printSheet', 'sheet', 'sheetHead'], ['loaderBox', 'printLoaders', 'loaders', 'loaderHead']]) {
        await press(b, `#${box} > summary`);
        await press(b, `#${button}`);
        await b.expect(`${what}: it is printed, whole and with its name`, await b.run((id, key) => [
            window.prints.pop(), by('printed').innerHTML === by(id).innerHTML && by('printed').textContent.length > 1000, document.title === page.words.say(key),
        ], what, says), [what, true, true]);
        await b.ask('afterPrint(); 0');
        await press(b, `#${box} > summary`);
    }
}

// The browser's own command prints the boxes that are open, the lesson and the paper too: it is pressed for real once.
async function boxes(b, where) {
    await b.run(() => {
        look(2000);
        ['traceBox', 'listingBox'].forEach((id) => { by(id).open = true; });
        drawTrace();
        drawListing();
        window.addEventListener('beforeprint', () => { window.caught = by('printed').textContent; }, { once: true });
    });
    await b.send('Page.printToPDF', {});
    const heads = await b.ask('["paperHead", "traceHead", "listingHead"].map((key) => window.caught.includes(page.words.say(key)))');
    await b.expect(`${where}: the browser's command prints what is open`, heads, [true, true, true]);
    await b.expect(`${where}: the paper, the lesson and the last orders`,
        await b.run(() => ['HELLO', by('lesson').selectedOptions[0].textContent, by('trace').textContent].map((text) => window.caught.includes(text))),
        [true, true, true]);
    await b.expect(
        `${where}: and nothing is left of it`,
        await b.ask('[by("printed").textContent, document.body.dataset.print === undefined]'),
        ['', true],
    );
}

// The shortest tape has room for all that stands above it.
async function strip(b, where, kind) {
    await b.click('isTape');
    await write(b, '#text', 'ZF');
    await b.ask('window.print = () => {}; 0');
    await press(b, '#printTape', kind);
    await b.send('Emulation.setEmulatedMedia', { media: 'print' });
    const room = await b.run(() => {
        const svg = document.querySelector('#printed svg'), { right } = svg.getBoundingClientRect();
        return [...svg.querySelectorAll('text')].map((node) => Math.round(right - node.getBoundingClientRect().right));
    });
    await b.expect(
        `${where}: a tape of two rows has room for its title and what is to be done`,
        room,
        (all) => all.length === 4 && all.every((one) => one >= 0),
    );
    await b.send('Emulation.setEmulatedMedia', { media: '' });
    await b.ask('afterPrint(); 0');
}

module.exports = { printed, printedBoxes, printedTape, printedSheets };
