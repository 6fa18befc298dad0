'use strict';
// What a lesson says is done on the page, done: its buttons are pressed by the mouse or by a finger, its boxes are filled by
// keys, and the words of the store and the prints that it names are looked at.
const { bringIntoSight } = require('./middle.js');

// What each block of the lesson says, step by step: the buttons and boxes, with how often and with which value; the words
// of the store that are to be seen then; and what is printed.
function stepsOf() {
    const before = (node) => (node.previousSibling ? node.previousSibling.textContent : '');
    const steps = [...document.querySelectorAll('#lessonText .doing li, #lessonText .doing > p')];
    return steps.map((step) => ({
        presses: [...step.querySelectorAll('strong, button')].map((name) => ({
            name: name.textContent,
            times: Number((/(\d+)-mal auf $/.exec(before(name)) || /^ (\d+) times/.exec(name.nextSibling?.textContent) || [0, 1])[1]),
            value: / (at|beside|bei|neben) $/.test(before(name)) && name.previousSibling.previousSibling?.tagName === 'CODE'
                ? name.previousSibling.previousSibling.textContent : undefined,
        })),
        words: [...step.textContent.matchAll(/(?:(?:word at|Wort auf Platz) (\d+)|\b[Ii]t is|\b[Ee]s ist)[^.]*? ([A-Z]\d+[FD])\b/g)]
            .map(([, place, order]) => ({ place, order })),
        printed: [...step.textContent.matchAll(/(?:It prints|Es druckt) ([A-Z0-9]+)\./g)].map(([, text]) => text),
    }));
}

// Finds a button or box by the text that a visitor reads, and marks it; what kind of control it is.
function findControl(name) {
    document.querySelectorAll('[data-tried]').forEach((node) => node.removeAttribute('data-tried'));
    const named = [...document.querySelectorAll('button, summary, label')].filter((node) => node.textContent.trim() === name
        || (node.tagName === 'LABEL' && node.querySelector('span')?.textContent.trim() === name));
    const seen = named.filter((node) => node.checkVisibility() && !node.closest('#lessonText'));
    if (seen.length !== 1) {
        return `${seen.length} controls with this name`;
    }
    const [found] = seen, box = found.tagName === 'LABEL' ? found.control : found;
    box.dataset.tried = '';
    return { INPUT: box.type, SELECT: 'list', SUMMARY: found.parentElement.open ? 'open' : 'closed' }[box.tagName]
        || (found.nextElementSibling?.tagName === 'INPUT' ? 'beside' : 'button');
}

// Chooses from a list by the keys, until what is chosen has a text. A lesson that is chosen takes the focus.
async function chooseByKeys(b, selector, text) {
    const [now, wanted] = await b.run((one, to) => {
        const { selectedIndex, options } = document.querySelector(one);
        return [selectedIndex, [...options].findIndex((option) => option.text === to || option.value === to)];
    }, selector, text);
    await b.expect(`${selector} has ${text}`, wanted >= 0, true);
    for (let at = now; at !== wanted && wanted >= 0; at += at < wanted ? 1 : -1) {
        await b.run((one) => document.querySelector(one).focus(), selector);
        await b.key(at < wanted ? 'ArrowDown' : 'ArrowUp');
    }
}

// Presses a part of the page where no bar of buttons is over it.
async function reach(b, hand, selector) {
    await b.run(bringIntoSight, selector);
    await b.press(selector, hand);
}

// Presses one button or fills one box, as the lesson says.
async function doPress(b, hand, { name, times, value }) {
    const kind = await b.run(findControl, name);
    if (kind === 'range') {
        await reach(b, hand, '[data-tried]');
        for (let k = 0; k < 6; k++) {
            await b.key('ArrowRight');
        }
    } else if (kind === 'list') {
        await (value === undefined ? undefined : chooseByKeys(b, '[data-tried]', value));
    } else if (kind === 'number') {
        await b.write('[data-tried]', value, hand);
        await b.key('Enter');
    } else if (['button', 'beside', 'closed'].includes(kind)) {
        if (value !== undefined) {
            await b.write('[data-tried] + input', value, hand);
        }
        for (let k = 0; k < times; k++) {
            await reach(b, hand, '[data-tried]');
        }
    } else {
        await b.expect(`the lesson's ${name}`, kind, 'open');
    }
    if (await b.ask('!by("ask").hidden')) {
        await reach(b, hand, '#replace');
    }
    await b.until('page.running === undefined');
}

// Does all that a lesson says, and looks at the words that it names.
async function doSteps(b, hand, what) {
    let place;
    for (const { presses, words, printed } of await b.run(stepsOf)) {
        for (const press of presses) {
            await doPress(b, hand, press);
        }
        for (const word of words) {
            place = word.place || place;
            await b.expect(`${what}: the word at ${place}`, await b.ask(`orderText(page.shown.words[${place}])`), word.order);
        }
        for (const text of printed) {
            await b.expect(`${what}: ${text} is printed`, [await b.text('paper'), await b.text('pm')].map((paper) => paper.trim()),
                (papers) => papers.includes(text));
        }
    }
}

module.exports = { chooseByKeys, doPress, doSteps, reach };
