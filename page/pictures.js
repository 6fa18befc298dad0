'use strict';
// Takes pictures of a story as a visitor sees it, on screens from a telephone's to a wall's, at some seconds and at its end.
//   node page/pictures.js BROWSER PAGE.html FOLDER [WIDTHxHEIGHT[,LANGUAGE[,STORY[,dark]]] ...]
const { pause } = require('./browser.js');
const { Visitor } = require('./visitor.js');

const [command, file, folder, ...asked] = process.argv.slice(2);
const SCREENS = ['1280x720', '1920x1080', '3840x2160', '1080x1920', '1366x768', '360x740'];
const TIMES = [0, 6, 15, 30, 45, 60]; // seconds
const PHONE = 500; // pixels: a screen less wide is a telephone's
const ATONCE = 2; // screens

async function watch(screen) {
    const [size, language = 'en', story = 'letter', scheme = 'light'] = screen.split(',');
    const [wide, high] = size.split('x').map(Number);
    const name = screen.replace(/,/g, '-');
    const b = new Visitor(command, file, folder);
    await b.open(`#lang=${language}`, () => b.size(wide, high, wide < PHONE));
    await b.send('Emulation.setEmulatedMedia', { features: [{ name: 'prefers-color-scheme', value: scheme }] });
    await b.set('stories', story);
    await b.press('#show');
    const since = Date.now();
    const take = async (at) => {
        await b.shot(`${name}-${at}.png`);
        const said = await b.run(() => ['story', 'parts', 'ending', 'paper'].map((id) => by(id).textContent).join(' | '));
        console.log(`${name} at ${at}: ${said.replace(/\s+/g, ' ')}`);
    };
    for (const at of TIMES) {
        await pause(Math.max(0, since + at * 1000 - Date.now()));
        await take(at);
    }
    await b.until('page.tour === undefined');
    await pause(1000);
    await take('end');
    await b.close();
}

(async () => {
    const left = asked.length ? asked : SCREENS;
    const work = async () => {
        while (left.length) {
            await watch(left.shift());
        }
    };
    await Promise.all(Array.from({ length: ATONCE }, work));
    process.exit(0);
})();
