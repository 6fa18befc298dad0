'use strict';
// What is printed: the tape, a worksheet, the cheat sheet, the loaders, or what the browser's own command prints: the
// program, its paper, the lesson and the boxes that are open.
const DRAWN_ROWS = 7000; // of a tape as a picture
const TITLE_LENGTH = 60; // letters
const PRINTED_BOXES = { lookBox: 'look', traceBox: 'trace', pmBox: 'pm', listingBox: 'listing', loaderBox: 'loaders', sheetBox: 'sheet' };

// What a text calls itself: its first comment, up to the end of a sentence or a line, or the name at which it is entered.
function titleOf(text) {
    const [, comment] = text.match(/^\s*[;[]\s*([^.:;\n\]]*)/) || [];
    const [, entered] = text.match(/^\s*enter\s+(\w+)/m) || [];
    const title = (comment || entered || '').trim();
    return title.length > TITLE_LENGTH ? `${title.slice(0, TITLE_LENGTH).trim()} …` : title;
}

// The name of the program in the box: that of the example that it is, the name that it prints, or what it calls itself.
function titleNow() {
    const { text, kind } = page.program;
    const example = EXAMPLES.find((one) => one.text === text && one.kind === kind);
    const name = printable(by('name').value);
    return example ? example.name : text === tapeOf(name) ? name : titleOf(text) || 'EDSAC';
}

// The tape as a picture, as many rows of it as a browser draws at once.
function stripNow() {
    const isCut = page.rows.length > DRAWN_ROWS;
    const cut = isCut ? page.words.say('stripCut', { count: page.words.number(DRAWN_ROWS) }) : '';
    const says = `${page.words.say('cut')} ${cut}`.trim();
    return stripOf(page.rows.slice(0, DRAWN_ROWS), page.labels, punchedOf, titleNow(), says);
}

// Prints one thing: the tape, a worksheet, the cheat sheet, the loaders or the page. Its title is that of the document too.
function preparePrint(what) {
    const copy = () => by(what).innerHTML;
    const heads = { tape: titleNow, worksheet: titleNow, page: titleNow };
    by('printed').innerHTML = { tape: stripNow, worksheet: worksheetNow, page: pageNow, sheet: copy, loaders: copy }[what]();
    document.body.dataset.print = what;
    document.title = heads[what] ? heads[what]() : page.words.say(`${what.replace(/s$/, '')}Head`);
}

function printOut(what) {
    preparePrint(what);
    window.print();
}

function afterPrint() {
    delete document.body.dataset.print;
    by('printed').textContent = '';
    document.title = page.words.say('title');
}

// The page without what only a screen has: the program whole, its paper, the lesson, and the boxes that are open.
function pageNow() {
    const headed = (head, text) => `<h2>${escaped(head)}</h2>${text}`;
    const say = (key) => page.words.say(key);
    const pre = (text) => `<pre>${escaped(text)}</pre>`;
    const parts = [`<h1>${escaped(titleNow())}</h1>`, pre(page.program.text)];
    if (by('paper').textContent.trim()) {
        parts.push(headed(say('paperHead'), pre(by('paper').textContent)));
    }
    if (by('lesson').value !== '0') {
        parts.push(headed(by('lesson').selectedOptions[0].textContent, `<div>${by('lessonText').innerHTML}</div>`));
    }
    for (const [box, id] of Object.entries(PRINTED_BOXES)) {
        const content = by(id);
        if (by(box).open && content.textContent.trim()) {
            const mark = { PRE: 'pre', TABLE: 'table' }[content.tagName] || 'div';
            parts.push(headed(by(box).firstElementChild.textContent, `<${mark}>${content.innerHTML}</${mark}>`));
        }
    }
    return parts.join('');
}

// A worksheet: the text, and a table to be filled in by hand.
function worksheetNow() {
    const say = (key) => escaped(page.words.say(key));
    const lesson = lessonNow();
    const heads = ['lookPlace', 'worksheetOrder', 'worksheetAcc', 'worksheetPrinted'];
    const rows = `<tr>${'<td>'.repeat(heads.length)}`.repeat(16);
    return `<h1>${say('worksheet')}: ${escaped(titleNow())}</h1><p>${say('worksheetName')}</p>`
        + (lesson ? `<div>${textsOf(lesson).exercise}</div>` : '')
        + `<pre>${escaped(page.program.text)}</pre><p>${say('worksheetAsk')}</p>`
        + `<table><tr>${heads.map((key) => `<th>${say(key)}`).join('')}${rows}</table>`;
}

if (typeof module !== 'undefined') {
    module.exports = { titleOf };
}
