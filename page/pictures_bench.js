'use strict';
// Takes pictures of the workbench, to be looked at: with a lesson, a refused text, an open word, after a run; at a desk and on a
// telephone, in both schemes and both languages.
//   node page/pictures_bench.js BROWSER PAGE.html FOLDER [WIDTHxHEIGHT ...]
const { pause } = require('./browser.js');
const { Visitor } = require('./visitor.js');

const [command, file, folder, ...asked] = process.argv.slice(2);
const SCREENS = ['1280x720', '1366x768', '1920x1080', '960x544', '1080x1920', '360x740'];
const PHONE = 500; // pixels: a screen less wide is a telephone's
const SETTLES = 2000; // milliseconds until nothing moves any more
const LANGUAGES = [['en', 'light'], ['de', 'dark'], ['en', 'dark'], ['de', 'light']];

// What is shown, each as what the page is asked to do.
const STATES = {
    empty: () => { write(); },
    lesson: () => {
        by('lesson').value = '3';
        by('lesson').dispatchEvent(new Event('change'));
        chooseExample(EXAMPLES.findIndex(({ name }) => name === 'hello.edsac'));
        toProgram();
        for (let k = 0; k < 5; k++) {
            step();
        }
        scrollTo(0, 0);
    },
    found: () => { findPlace(72); },
    word: () => {
        openWord(59);
        flip(3);
    },
    stopped: () => {
        closeWord();
        look(100000);
    },
    refused: () => { put({ text: 'segment main\nO mark F\nz F\nmark: * F\nenter main\n', kind: 'source' }); },
    plain: () => {
        by('lesson').value = '0';
        by('lesson').dispatchEvent(new Event('change'));
        drawLesson();
        chooseExample(EXAMPLES.findIndex(({ name }) => name === 'disc.edsac'));
        look(100000);
        scrollTo(0, 0);
    },
    tape: () => {
        chooseExample(EXAMPLES.findIndex(({ name }) => name === 'name.tape'));
        toProgram();
        step();
    },
    digits: () => {
        by('figures').value = 'digits';
        draw();
    },
    below: () => { by('now').scrollIntoView(); },
};

(async () => {
    const b = new Visitor(command, file, folder);
    for (const screen of asked.length ? asked : SCREENS) {
        const [wide, high] = screen.split('x').map(Number);
        for (const [language, scheme] of LANGUAGES) {
            await b.open(`#lang=${language}`, () => b.size(wide, high, wide < PHONE));
            await b.send('Emulation.setEmulatedMedia', { features: [{ name: 'prefers-color-scheme', value: scheme }] });
            for (const [name, state] of Object.entries(STATES)) {
                await b.run(state);
                await pause(SETTLES);
                await b.shot(`bench-${screen}-${language}-${scheme}-${name}.png`);
            }
        }
    }
    await b.close();
    process.exit(0);
})();
