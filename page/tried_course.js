'use strict';
// The course without a browser: what is checked of an exercise, and that each button and box that a lesson names is one of
// the page.
const fs = require('fs');
const path = require('path');
const { sumOf, linesOf, differenceOfLines, differenceOfWords } = require('./lessons.js');

const TOP = path.join(__dirname, '..');
const readTop = (file) => fs.readFileSync(path.join(TOP, file), 'utf8');
const RUN = ['run', 'pause', 'startAgain', 'show', 'stopShow', 'load']; // texts that the page puts on its buttons by itself

// The texts of the buttons and boxes of the page in a language.
function buttonsOf(texts) {
    const html = readTop('page/page.html');
    const marked = [...html.matchAll(/<(?:button|summary)\b[^>]*data-say="([\w.]+)"/g), ...html.matchAll(/<label\b[^>]*>(?:<[^>]*>)*<span\b[^>]*data-say="([\w.]+)"/g)];
    const keys = [...RUN, ...marked.map(([, key]) => key)];
    return keys.map((key) => key.split('.').reduce((part, name) => part[name], texts));
}

// What the blocks of a course for the page name in bold.
function namedIn(text, phrase) {
    const chunks = text.split(/\n\n+/);
    const isList = (chunk) => /^(- |\d+\. )/.test(chunk || '');
    const blocks = chunks.flatMap((chunk, k) => (chunk.startsWith(`**${phrase}**`)
        ? [chunk.slice(phrase.length + 4), isList(chunks[k + 1]) ? chunks[k + 1] : ''] : []));
    return blocks.flatMap((block) => [...block.matchAll(/\*\*([^*]+)\*\*/g)].map(([, name]) => name));
}

// Whether a name is the text of a button, of which {name} is a part that differs.
const isText = (name, text) => new RegExp(`^${text.replace(/[.*+?^$()|[\]\\]/g, '\\$&').replace(/\{\w+\}/g, '.+')}$`).test(name);

function names(same) {
    for (const file of fs.readdirSync(path.join(TOP, 'page/languages'))) {
        const texts = JSON.parse(readTop(`page/languages/${file}`));
        const found = namedIn(readTop(texts.course.file), texts.course.page), buttons = buttonsOf(texts);
        same(`${file}: the course names buttons`, found.length > 80, true);
        same(`${file}: each is a button or a box of the page`, found.filter((name) => !buttons.some((text) => isText(name, text))), []);
    }
}

function differences(same) {
    const sums = ['1', '8', '27'].map(sumOf);
    for (const [paper, wanted] of [
        ['1\r\n8  \r\n27\r\n\n', undefined],
        ['', { key: 'empty', have: 0, wanted: 3 }],
        ['1', { key: 'oneLine', have: 1, wanted: 3 }],
        ['1\n8', { key: 'lines', have: 2, wanted: 3 }],
        ['1\n9\n27', { key: 'line', line: 2, printed: '9' }],
        ['1\n8\n28', { key: 'lastLine', line: 3, printed: '28' }],
    ]) {
        same(`a paper with ${JSON.stringify(paper)}`, differenceOfLines(linesOf(paper), sums), wanted);
    }
    same('one line too many', differenceOfLines(['55', '1'], [sumOf('55')]), { key: 'linesForOne', have: 2, wanted: 1 });
    same('another line', differenceOfLines(['54'], [sumOf('55')]), { key: 'onlyLine', line: 1, printed: '54' });
    const words = ['A100F', 'S100D', 'ZF'];
    for (const [orders, text, wanted] of [
        [['PF', ...words, 'PF'], 'word 114888', undefined],
        [words, 'A 100 F', { key: 'noWord' }],
        [['PF', 'A100F', 'S100D'], 'word 5', { key: 'words', have: 2, wanted: 3 }],
        [['PF', 'PF'], 'word 0', { key: 'words', have: 0, wanted: 3 }],
    ]) {
        same(`words ${orders}`, differenceOfWords(orders, words.map(sumOf), text), wanted);
    }
}

// `same` takes what is tried, what is there and what is wanted.
function course(same) {
    same('the sum of nothing', sumOf(''), 'cbf29ce484222325');
    same('the sum of a letter', sumOf('a'), 'af63dc4c8601ec8c');
    differences(same);
    names(same);
}

module.exports = { course };
