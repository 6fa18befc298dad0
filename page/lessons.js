'use strict';
// The lessons of the course, in the page's language. An exercise is checked by what its run prints or stores, beside sums
// of the expected result, one a line or a word: the page's text holds no answer.

// The sum of a text: FNV-1a of 64 bits.
function sumOf(text) {
    let sum = 14695981039346656037n;
    for (const byte of new TextEncoder().encode(text)) {
        sum = BigInt.asUintN(64, (sum ^ BigInt(byte)) * 1099511628211n);
    }
    return sum.toString(16).padStart(16, '0');
}

// The lines of a paper, without the characters that nobody sees.
function linesOf(paper) {
    const seen = paper.replace(/\r/g, '').replace(/[ \t]+$/gm, '').replace(/\n+$/, '');
    return seen === '' ? [] : seen.split('\n');
}

// What differs between the lines of a paper and those that are due: the key of a sentence and its values; nothing if none.
function differenceOfLines(lines, sums) {
    const [have, wanted] = [lines.length, sums.length];
    if (have !== wanted) {
        return { key: have === 0 ? 'empty' : have === 1 ? 'oneLine' : wanted === 1 ? 'linesForOne' : 'lines', have, wanted };
    }
    const at = lines.findIndex((line, k) => sumOf(line) !== sums[k]);
    const key = wanted === 1 ? 'onlyLine' : at === wanted - 1 ? 'lastLine' : 'line';
    return at < 0 ? undefined : { key, line: at + 1, printed: lines[at] };
}

// The same of the words that are due one below the other: as many as are right at the place that has most of them.
function differenceOfWords(orders, sums, text) {
    const rightAt = (at) => sums.filter((sum, k) => at + k < orders.length && sumOf(orders[at + k]) === sum).length;
    const have = Math.max(...orders.map((_, at) => rightAt(at)));
    if (have === sums.length && /\bword\b/.test(text)) {
        return undefined;
    }
    return have === sums.length ? { key: 'noWord' } : { key: 'words', have, wanted: sums.length };
}

// What differs between what a lesson asks for and the machine at the end of a run.
function differenceOf(due, shown, machine, text) {
    if (due.kind === 'paper') {
        return differenceOfLines(linesOf(shown.way.text(0, shown.printed)), due.sums);
    }
    if (due.kind === 'place') {
        const word = shown.words[due.place], order = machine.order(word);
        const { number } = machine.meaning(word, false);
        return sumOf(order) === due.sums[0] ? undefined : { key: 'place', place: due.place, order, number };
    }
    return differenceOfWords([...shown.words.slice(LOADER)].map((word) => machine.order(word)), due.sums, text);
}

const lessonNow = () => LESSONS[Number(by('lesson').value) - 1];

// The title, the text and the exercise of a lesson, in the page's language.
const textsOf = (lesson) => lesson.texts[page.words.name];

// A lesson is chosen: it is shown, and its first program comes into the box.
function chooseLesson() {
    sayAt('checked');
    drawLesson();
    if (lessonNow()) {
        loadProgram(lessonNow().programs[0]);
    }
}

function drawLesson() {
    const lesson = lessonNow();
    by('lessonBox').hidden = lesson === undefined;
    if (lesson === undefined) {
        by('lessonText').textContent = '';
        sayAt('checked');
        return;
    }
    const isOpen = [...by('lessonText').querySelectorAll('details')].map((box) => box.open);
    const tables = ['orders', 'codes'].map((name) => (
        `<details><summary>${escaped(page.words.say(`tables.${name}`))}</summary>${SHEETS[page.words.name][name]}</details>`));
    by('lessonText').innerHTML = `${textsOf(lesson).html}${tables.join('')}`;
    by('lessonText').querySelectorAll('details').forEach((box, k) => { box.open = isOpen[k]; });
    by('lessonPrograms').replaceChildren(...lesson.programs.map(loadButton));
    by('lessonText').querySelectorAll('.doing strong').forEach((said) => { // where the text names such a button, it has it
        const name = lesson.programs.find((one) => page.words.say('load', { name: one }) === said.textContent);
        if (name) {
            said.replaceWith(loadButton(name));
        }
    });
}

function loadButton(name) {
    const button = document.createElement('button');
    button.textContent = page.words.say('load', { name });
    button.onclick = () => loadProgram(name);
    return button;
}

function loadProgram(name) {
    chooseExample(EXAMPLES.findIndex((example) => example.name === name));
}

// A run of the text in the box that nobody sees, up to its first end: the machine that is shown stays as it is.
function triedNow(program) {
    try {
        return new Way(page.machine, program, page.machine.rows(program).out).at(TRIED);
    } catch (fault) {
        return faultOf(fault);
    }
}

// What is said of a run that ended in another way than by a stop.
function endingOf(shown, program) {
    const { words } = page, { ending, note } = shown;
    if (ending === 'refused') {
        return words.say('checked.refused', { note: note.trim(), ...words.refusal(note, program.text, program.kind) });
    }
    return shown.words ? words.say(`checked.${ending}`, { orders: words.number(TRIED), place: shown.counter })
        : words.say(ending === 'too long' ? 'tooLong' : `ends.${ending}`, { note });
}

// What is said of an exercise: whether the program is right, and if not, what differs.
function verdictOf(due, shown, program) {
    const { words } = page;
    const difference = shown.words && differenceOf(due, shown, page.machine, program.text);
    if (shown.ending !== 'stopped') {
        const isResult = shown.words && difference === undefined;
        return `${words.say('notYet')} ${isResult ? words.say('checked.result') : ''} ${endingOf(shown, program)}`;
    }
    return difference ? `${words.say('notYet')} ${words.say(`checked.${difference.key}`, difference)}`
        : words.say(`isRight.${due.kind}`, due);
}

function checkLesson() {
    const program = textNow(), { due } = lessonNow(), shown = triedNow(program);
    sayAt('checked', () => verdictOf(due, shown, program).replace(/ +/g, ' '));
}

if (typeof module !== 'undefined') {
    module.exports = { sumOf, linesOf, differenceOfLines, differenceOfWords };
}
