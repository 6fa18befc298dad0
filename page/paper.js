'use strict';
// The paper of the teleprinter.
const TAIL = 8000, FAST_TAIL = 2000; // codes of the paper that are laid out, and those while the machine runs fast
const PAPER_LINES = 24; // of a paper that is shown whole
const LEAST_TYPE = 0.4, LEAST_HERE = 0.65, MOST_TYPE = 2; // sizes of a letter, in rem; the second one in the workbench

// The end of the paper: no more than a browser lays out at once. What was printed last has a part of its own.
function drawPaper() {
    const { way, printed } = page.shown;
    const left = Math.max(0, printed - (isFast() ? FAST_TAIL : TAIL));
    const paper = way.text(left, printed).replace(/\r/g, '');
    const said = left > 0 ? `[${page.words.say('lines', { count: page.words.number(left) })}]\n${paper}` : paper;
    if (by('paper').textContent !== said) {
        const last = document.createElement('span');
        last.textContent = said.slice(-1).trim();
        sizePaper(said);
        by('paper').replaceChildren(said.slice(0, said.length - last.textContent.length), last);
        by('paper').scrollTop = by('paper').scrollHeight;
    }
}

// Large type for a few letters, smaller type for a picture of many lines.
function sizePaper(said) {
    const lines = said.slice(-2000).split('\n').slice(-PAPER_LINES);
    const widest = Math.max(...lines.map((line) => line.length), 1);
    const [wide, high] = measure('paper', () => {
        const { paddingTop, paddingBottom, maxHeight } = getComputedStyle(by('paper'));
        const most = isOneScreen() ? by('paper').parentElement.clientHeight - by('paperHead').offsetHeight : parseFloat(maxHeight);
        return [by('paper').clientWidth, most - parseFloat(paddingTop) - parseFloat(paddingBottom)];
    });
    const size = Math.min((wide * 0.9) / (widest * 0.61), high / (lines.length * 1.2)) / letterHigh();
    by('paper').style.fontSize = `${Math.max(isBench() ? LEAST_HERE : LEAST_TYPE, Math.min(Math.floor(100 * size) / 100, MOST_TYPE))}rem`;
}
