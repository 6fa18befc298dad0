'use strict';
// The lessons, gone through by buttons alone: each is chosen, what its text says is done, the answer is typed, and Check says
// that it is right; what Check says of a wrong answer; and what is said of examples.
const fs = require('fs');
const { chooseByKeys, doPress, doSteps, reach } = require('./tried_steps.js');

const answer = (number) => fs.readFileSync(`examples/answer${number}.edsac`, 'utf8');
const example = (name) => fs.readFileSync(`examples/${name}.edsac`, 'utf8');

let wrote = 0; // how often something was on the paper when Check was pressed

const verdict = async (b, hand = 'mouse') => {
    const before = await b.ask('window.wasShown = page.shown; by("paper").textContent');
    wrote += before !== '';
    await reach(b, hand, '#check');
    await b.expect('Check leaves the machine and the paper as they are',
        [await b.ask('window.wasShown === page.shown'), await b.text('paper')], [true, before]);
    return b.text('checked');
};

async function typeProgram(b, text, hand = 'mouse') {
    await b.write('#text', text, hand);
    await b.until('editor.timer === undefined && page.program.text === by("text").value');
    await b.expect('what was typed is there', await b.ask('by("text").value'), text);
}

const LANGUAGES = {
    en: { exercise: 'Exercise', notYet: 'Not yet.', right: 'Right!', phrases: ['At a terminal', 'On the page', 'Answer'] },
    de: { exercise: 'Übung', notYet: 'Noch nicht.', right: 'Richtig!', phrases: ['Am Terminal', 'Auf der Seite', 'Lösung'] },
};

async function oneLesson(b, hand, number, language) {
    const what = `${language}, lesson ${number}`, { exercise, notYet, right, phrases } = LANGUAGES[language];
    await chooseByKeys(b, '#lesson', String(number));
    if (await b.ask('!by("ask").hidden')) {
        await reach(b, hand, '#replace');
    }
    await b.expect(`${what}: its first program is in the box`, await b.run(() => {
        const [name] = LESSONS[Number(by('lesson').value) - 1].programs;
        return [by('text').value === EXAMPLES.find((one) => one.name === name).text, page.program.kind];
    }), [true, 'source']);
    const text = await b.text('lessonText');
    await b.expect(`${what}: its text`, [text.includes(exercise), phrases.filter((one) => text.includes(one)), text.includes('./edsac')], [true, [], false]);
    await b.expect(`${what}: the tables`, await b.run(() => [...document.querySelectorAll('#lessonText details')].map((box) => box.querySelectorAll('table').length)), [1, 2]);
    await b.expect(`${what}: the program is no answer`, await verdict(b, hand), (said) => said.startsWith(notYet));
    await doSteps(b, hand, what);
    await b.expect(`${what}: nor is what the steps left`, await verdict(b, hand), (said) => said.startsWith(notYet));
    await typeProgram(b, answer(number), hand);
    await b.expect(`${what}: the answer`, await verdict(b, hand), (said) => said.startsWith(right));
}

// The nine lessons in each language.
async function allLessons(b, hand) {
    const numbers = await b.ask('LESSONS.map((lesson) => lesson.number)');
    await b.expect('nine lessons', numbers, [1, 2, 3, 4, 5, 6, 7, 8, 9]);
    wrote = 0;
    for (const [language, { exercise }] of Object.entries(LANGUAGES)) {
        await b.press(`#language [lang=${language}]`, hand);
        await b.expect(`the lesson that is shown speaks ${language}`, await b.text('lessonText'), (said) => said === '' || said.includes(exercise));
        for (const number of numbers) {
            await oneLesson(b, hand, number, language);
        }
    }
    await b.expect('Check was pressed beside papers with something on them', wrote, (count) => count > 4);
}

async function lessons(b) {
    await b.size(1366, 768);
    await allLessons(b, 'mouse');
    await b.unsize();
    await leave(b);
}

// Back to the exhibit.
async function leave(b) {
    await b.speak('en');
    await b.set('lesson', '0');
    await b.click('toExhibit');
    await b.ask('follow(true); 0'); // a lesson looks into another tank
    await b.choose('letter.tape');
}

// All of it in a window as narrow as a telephone.
async function narrowLessons(b) {
    await b.size(360, 740);
    await allLessons(b, 'mouse');
    await b.unsize();
    await leave(b);
}

// The ninth lesson counts how often the machine comes to 76.
async function turns(b) {
    await b.choose('faulty.edsac');
    await b.click('toProgram');
    let count = -1;
    do {
        count++;
        await doPress(b, 'mouse', { name: await b.ask('page.words.say("toPlace")'), times: 1, value: '76' });
    } while (await b.ask('!isEnded()') && count < 20);
    await b.expect('the loop goes round nine times', [count, await b.ask('page.shown.counter')], [9, 64]);
}

// A wrong answer of each kind, with what is said in each language.
const WRONG = [
    [1, () => example('words'), '3 words were looked for, one below the other. Right so far: 1.', 'Gesucht sind 3 Wörter untereinander. Richtig sind bisher: 1.'],
    [1, () => 'segment main\nA 100 F\nS 100 D\nZ F\nenter main\n', 'The words are right. Now write them as numbers, with: word', 'Die Wörter stimmen. Jetzt schreib sie als Zahlen, mit: word'],
    [2, () => example('two'), 'The word at 144 differs: it is P2D, as a number 5.', 'Das Wort auf Platz 144 ist anders: Es ist P2D, als Zahl 5.'],
    [3, () => answer(3).replace('\nZ F', '\nX F'), 'The result is right, but the program has to stop as well. The machine stands still at place 65: the word there is not an order.',
        'Das Ergebnis stimmt, aber das Programm muss auch anhalten. Die Maschine steht auf Platz 65: Das Wort dort ist kein Befehl.'],
    [4, () => answer(4).replace('eleven: word 11', 'eleven: word 10'), 'The paper has 9 lines, 10 are wanted.', 'Auf dem Papier stehen 9 Zeilen, es sollen 10 sein.'],
    [4, () => example('squares'), 'Line 2 differs: your program printed 4', 'Zeile 2 ist anders: Dein Programm hat 4 gedruckt.'],
    [4, () => 'segment main\nmain1: E main1 F\nenter main\n', 'The program did not stop within 2,000,000 orders. Does it go round for ever?',
        'Das Programm hat nach 2.000.000 Befehlen noch nicht angehalten. Läuft es im Kreis?'],
    [4, () => 'segment main\nZ Q\nenter main\n', 'The text is refused: line 2: S3 not a statement. The machine does not know this kind of line. Look for a typing mistake. An order ends with F (a short word) or D (a long one). Is that letter missing?',
        'Der Text wird nicht angenommen: line 2: S3 not a statement. Eine solche Zeile kennt die Maschine nicht. Such nach einem Schreibfehler. Ein Befehl endet mit F (ein kurzes Wort) oder D (ein langes). Fehlt dieser Buchstabe?'],
    [7, () => answer(7).replace('F0F"', 'F"'), 'The machine waits for more tape, at place 83.', 'Die Maschine wartet auf mehr Lochstreifen, auf Platz 83.'],
    [8, () => answer(8).replace('33F0F', '34F0F'), 'The last line differs: your program printed 1.1', 'Die letzte Zeile ist anders: Dein Programm hat 1.1 gedruckt.'],
    [9, () => example('faulty2'), 'The paper is empty.', 'Das Papier ist leer.'],
    [9, () => answer(9).replace('word 10', 'word 11'), 'The line differs: your program printed 66', 'Die Zeile ist anders: Dein Programm hat 66 gedruckt.'],
];

async function mistakes(b) {
    await b.set('lesson', '9');
    await turns(b);
    for (const [number, text, english, german] of WRONG) {
        await b.set('lesson', String(number));
        await typeProgram(b, text());
        await b.speak('en');
        await b.expect(`lesson ${number}: ${english}`, await verdict(b), `Not yet. ${english}`.trim());
        await b.speak('de');
        await b.expect(`lesson ${number}: ${german}`, await b.text('checked'), `Noch nicht. ${german}`.trim());
    }
    await leave(b);
}

// No answer is in the page. Some hints. What is proved of an example is said where it is chosen, and of no other text.
async function answers(b) {
    await b.expect(
        'no answer is in the page',
        await b.ask('EXAMPLES.some((example) => example.name.startsWith("answer"))'),
        false,
    );
    const told = await b.run((phrases) => LESSONS.flatMap(({ texts }) => Object.values(texts)).filter(({ html }) => phrases.some((one) => html.includes(one))).length,
        Object.values(LANGUAGES).flatMap(({ phrases }) => phrases.map((phrase) => `${phrase}:`)));
    await b.expect('nor in the lessons, or what is done at a terminal', told, 0);
    const hints = { 'a 5 F': 'capital letters', 'A 5': 'F (a short word) or D', 'text "HELLO YOU"': 'has no blank' };
    await b.set('lesson', '9');
    await reach(b, 'mouse', '#lessonText summary');
    await b.speak('de');
    await b.expect('a table of the lesson that was opened stays open', await b.run(() => [...by('lessonText').querySelectorAll('details')].map((box) => box.open)), [true, false]);
    await b.speak('en');
    for (const [line, hint] of Object.entries(hints)) {
        await b.type(`segment main\n${line}\nZ F\nenter main\n`);
        await b.expect(`a hint for ${line}`, await b.text('refused'), (said) => said.includes(hint));
    }
    await b.set('lesson', '0');
    await b.choose('celsius.edsac');
    await b.expect(
        'what is proved of an example',
        await b.text('exampleProof'),
        (said) => said.startsWith('Proved for all its data: for every temperature'),
    );
    await b.type((await b.run(() => by('text').value)).replace('212F', '213F'));
    await b.expect('nothing of a text that is changed', await b.text('exampleProof'), '');
    await b.choose('letter.tape');
    await b.expect('nothing of an example without a law', await b.text('exampleProof'), '');
    await b.choose('decimals.edsac');
    await b.expect(
        'what is proved of the decimals of e',
        await b.text('exampleProof'),
        'These are the decimals of e: not only tried, but proved.',
    );
    await leave(b);
}

module.exports = { lessons, narrowLessons, mistakes, answers };
