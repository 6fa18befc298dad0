'use strict';
// What a hand does on the stage: rows that are touched, lamps that are flipped, keys of the screen, the sounds; and what the
// rows then say.

// Opens the word in a place by a press on its row.
async function openRow(b, place, kind) {
    await b.ask(`page.peek = ${place}; draw(); 0`);
    const row = await b.ask(`lens.places.indexOf(${place}) + 1`);
    await b.press(`#lens tr:nth-child(${row}) .brief`, kind);
    await b.expect(`the word in place ${place} is open`, await b.ask('[by("word").hidden, opened.place]'), [false, place]);
}

const lamp = (digit) => `#wordLamps .part:nth-child(${digit < 5 ? 1 : digit < 16 ? 2 : 3}) button:nth-child(${digit < 5 ? digit + 1 : digit < 16 ? digit - 4 : 1})`;

// A word is opened, its lamps are flipped, and a copy of the tape is run with it. The store stays as it is.
async function words(b) {
    await b.choose('letter.tape');
    await b.set('at', '193');
    await openRow(b, 66, 'mouse');
    await b.expect('its parts', await b.run(() => ['wordHead', 'word_letter', 'word_address', 'word_length'].map((id) => by(id).textContent)),
        ['Place 66: AF', 'letter: A', 'address: 0', 'short']);
    await b.expect('each has its name', await b.run(() => [...by('wordLamps').children].map((part) => part.getAttribute('aria-label'))), ['The letter', 'The address', 'The length']);
    await b.expect('nothing is to be tried yet', await b.ask('[by("wordRun").disabled, by("wordUndo").disabled]'), [true, true]);
    for (const digit of [4, 14, 16]) {
        await b.press(lamp(digit));
    }
    await b.expect('what it becomes', await b.run(() => ['wordHead', 'word_letter', 'word_address', 'word_length', 'wordSays']
        .map((id) => by(id).textContent.slice(0, 33))), ['Place 66: AF would become B2D', 'letter: B', 'address: 2', 'long', 'This is tried on a copy: a new ta']);
    await b.expect('the lamp is pressed', await b.run((one) => document.querySelector(one).getAttribute('aria-pressed'), lamp(4)), 'true');
    await b.expect('the store is as it was', await b.ask('page.machine.order(page.shown.words[66])'), 'AF');
    await b.press('#wordUndo');
    await b.expect('as it was', await b.text('wordHead'), 'Place 66: AF');
    await b.press(lamp(4));
    await tried(b, 'letter.tape with another letter', 'B', 66);
    await b.expect('and the text says so', await b.ask('by("text").value.split("\\n")[0]'), '[A copy with another word: BF in place 66.]');
    await b.set('at', '60');
    await openRow(b, 70, 'mouse');
    await b.press(lamp(0));
    await tried(b, 'a word where the tape had none', 'B', 70);
    await copies(b);
}

// Runs the copy of the word that is open to its end: it prints what it should, and the word is in its place.
async function tried(b, what, printed, place) {
    const word = await b.ask('opened.word');
    await b.ask('page.hurry = 0.01; 0');
    await b.press('#wordRun');
    await b.expect(`${what}: a story begins`, await b.ask('[page.tour !== undefined, by("word").hidden]'), [true, true]);
    await b.expect(`${what}: and ends`, await b.until('page.tour === undefined'), true);
    await b.expect(`${what}: what is printed`, (await b.text('paper')).trim(), printed);
    await b.expect(`${what}: the word is there`, await b.ask(`page.shown.words[${place}]`), word);
    await b.ask('page.hurry = 1; 0');
}

// Copies of a source and of a tape of May 1949, a word that no tape can place, and own work.
async function copies(b) {
    await b.choose('letter.edsac');
    await b.set('at', '100000');
    const place = await b.ask('page.items.filter(({ location }) => location !== undefined).pop().location');
    await openRow(b, place, 'mouse');
    await b.press(lamp(4));
    const letter = await b.ask('page.machine.order(opened.word)[0]');
    await tried(b, 'a source', letter, place);
    await b.expect('its copy is a tape', await b.ask('page.program.kind'), 'tape');
    await b.choose('squares.tape1');
    await b.set('at', '100');
    await openRow(b, 32, 'mouse');
    await b.press(lamp(15));
    await b.expect('a copy of a tape of May 1949', await b.ask('opened.copy.kind'), 'tape1');
    await openRow(b, 900, 'mouse');
    await b.press(lamp(15));
    await b.expect('which has no item for other places', await b.ask('[by("wordRun").disabled, by("wordSays").textContent]'),
        [true, 'No tape can put this word there.']);
    await b.press('#wordClose');
    await b.expect('closed', await b.ask('by("word").hidden'), true);
    await b.choose('letter.tape');
    await openRow(b, 22, 'mouse');
    await b.press(lamp(16));
    await b.expect('a word of the loader, which reads the copy, can not be tried', await b.ask('by("wordRun").disabled'), true);
    await b.type('T64K GK ZF EZPF');
    await b.set('at', '60');
    await openRow(b, 64, 'mouse');
    await b.press(lamp(0));
    await b.press('#wordRun');
    await b.expect('own work is asked about', await b.ask('[by("ask").hidden, by("text").value]'), [false, 'T64K GK ZF EZPF']);
    await b.press('#keep');
    await b.ask('editor.isOwn = false; 0');
    await b.choose('letter.tape');
}

// The keys of the screen: a letter at once, a name letter by letter. The slider by keys.
async function keys(b) {
    await b.ask('page.hurry = 0.01; 0');
    await b.set('stories', 'letter');
    await b.set('at', '193');
    await b.press('#letters button:nth-child(17)');
    await b.until('page.tour === undefined && page.shown.ending === "stopped"');
    await b.expect('a letter', await b.text('paper'), 'Q');
    await b.press('#letters button:nth-child(5)');
    await b.until('page.tour === undefined && page.shown.ending === "stopped"');
    await b.expect('and another one', await b.text('paper'), 'E');
    await b.set('stories', 'name');
    await b.expect('a name begins empty', await b.ask('[by("keyboard").hidden, by("printName").disabled]'), [false, false]);
    await b.press('#rubOut');
    for (const letter of [1, 15, 2, 3]) {
        await b.press(`#letters button:nth-child(${letter})`);
    }
    await b.press('#rubOut');
    await b.expect('it is spelled', [await b.text('typed'), await b.ask('by("name").value')], ['AOB', 'AOB']);
    await b.press('#printName');
    await b.expect('a story begins, and the keys are gone', await b.ask('[page.tour !== undefined, by("keyboard").hidden]'), [true, true]);
    await b.until('page.tour === undefined && page.shown.ending === "stopped"');
    await b.expect('and printed', await b.text('paper'), 'AOB');
    await b.set('speed', '2');
    await b.ask('page.hurry = 1; by("speed").focus(); 0');
    await b.key('ArrowRight');
    await b.expect('the slider by a key', [await b.ask('by("speed").value'), await b.text('pace')], ['3', '650, as in 1949']);
    await b.key('ArrowLeft');
    await b.set('name', '');
    await b.set('stories', 'letter');
}

// What the rows say: long words with both places, codes in the present shift, the multiplier, the parts of an item.
async function rows(b) {
    await b.choose('letter.tape');
    await b.set('at', '9');
    await b.click('step');
    const long = await b.run(() => {
        const [top, under] = [40, 41].map((place) => lens.rowOf(place));
        const cells = (row) => [...row.cells].map((cell) => cell.innerText.replace(/\s+/g, ' ').trim());
        const lit = [...top.cells[1].children].map((lamp) => (lamp.className === 'on' ? '1' : '0')).join('');
        const { words: all, digits } = page.shown;
        return [cells(top), cells(under), lit === binary(all[41], 17) + digits[20] + binary(all[40], 17)];
    });
    await b.expect('a long word as one', long, [['40', '', 'one long number:'], ['41', '4140', '5'], true]);
    await b.expect('and is told as one', await b.text('did'), 'Places 40 and 41 now hold one long number: 5. A row of the tape was read: T.');
    await b.click('start');
    await b.expect('then they are two rows again', await b.run(() => {
        page.peek = 40;
        draw();
        return [40, 41].map((place) => [lens.rowOf(place).cells.length, lens.rowOf(place).cells[1].children.length]);
    }), [[4, 17], [4, 17]]);
    await b.choose('digits.tape');
    const codes = await b.run(() => {
        const brief = () => {
            page.peek = 72;
            draw();
            return lens.rowOf(72).cells[3].textContent;
        };
        const entry = page.rows.length && pictureAt(100000).orders;
        let orders = 0;
        while (pictureAt(orders).counter !== 64) {
            orders++;
        }
        return [orders, orders + 1].map((at) => {
            look(at);
            return brief();
        }).concat(entry > 0);
    });
    await b.expect('a code is named by what it prints in the present shift', codes, ['the code of O', 'the code of 9', true]);
    await b.choose('disc.edsac');
    const times = await b.run(() => {
        let shown = pictureAt(0);
        while (shown.counter < 56 || page.machine.meaning(shown.words[shown.counter], false).letter !== 'H') {
            shown = pictureAt(shown.orders + 1, shown);
        }
        look(shown.orders + 1, shown);
        return [by('times').textContent, page.moves.map(({ kind }) => kind).join()];
    });
    await b.expect('the multiplier', times, ['-9', '']);
    await partsOfItem(b);
}

async function partsOfItem(b) {
    await b.set('stories', 'letter');
    await b.run(() => {
        Object.assign(page, { hurry: 0.03, parts: new Set() });
        const note = () => page.parts.add(by('parts').hidden ? '' : [...by('parts').children].map((part) => part.className + part.textContent).join('|'));
        page.watching = new MutationObserver(note);
        page.watching.observe(by('parts'), { childList: true, subtree: true, attributes: true });
    });
    await b.click('show');
    await b.until('page.tour === undefined');
    const said = ['O is the letter: what to do', '2 the digits become the number 2', '@ adds 64, where the program begins'];
    const wanted = [1, 2, 3].map((count) => said.map((one, k) => (k < count ? `read${one}` : one)).join('|'));
    await b.expect('the parts of O2@, as they are read', await b.ask('[...page.parts].filter(Boolean)'), wanted);
    await b.expect('and then no more', await b.ask('by("parts").hidden'), true);
    await b.ask('page.watching.disconnect(); page.hurry = 1; 0');
}

// The reader and the teleprinter clatter where the bell is on; not on the way back, and not too often.
async function sounds(b) {
    await b.choose('letter.tape');
    await b.run(() => {
        const node = () => ({ connect: (next) => next, start() {}, stop() {}, frequency: {}, gain: { setValueAtTime() {}, exponentialRampToValueAtTime() {} } });
        const heard = [];
        const band = () => ({ ...node(), frequency: { set value(pitch) { heard.push(pitch); } } });
        page.formerSounds = { ...sound, touched: page.touched };
        sound.context = { currentTime: 0, sampleRate: 1000, destination: {}, createGain: node, createBufferSource: node, createOscillator: node,
            createBiquadFilter: band, createBuffer: () => ({ getChannelData: () => [] }) };
        page.touched = true;
        page.hear = (does) => {
            heard.length = 0;
            sound.last = -1000;
            does();
            return heard.join();
        };
    });
    const heard = await b.run(() => {
        const { reader, printer } = CLATTER;
        const names = { [reader.pitch]: 'reader', [printer.pitch]: 'printer', '': 'silence' };
        const after = (orders, does) => {
            look(orders);
            return names[page.hear(does)] || 'too often';
        };
        const all = [after(9, step), after(0, step), after(191, step), after(10, back), after(9, () => look(90))];
        by('sound').checked = false;
        all.push(after(9, step));
        by('sound').checked = true;
        look(9);
        all.push(page.hear(() => { for (let k = 0; k < 90; k++) { step(); } }).split(',').length < 10);
        const { touched, ...former } = page.formerSounds;
        Object.assign(sound, former);
        page.touched = touched;
        delete page.hear;
        return all;
    });
    await b.expect('what is heard', heard, ['reader', 'silence', 'printer', 'silence', 'silence', 'silence', true]);
    await b.expect('then the sounds are the browser\'s again', await b.run(() => [sound.context, sound.noise]
        .every((one) => one === undefined || one instanceof AudioContext || one instanceof AudioBuffer)), true);
    await b.click('start');
}

// The same with a finger on a telephone.
async function fingers(b) {
    await b.size(360, 740, true);
    await b.send('Emulation.setTouchEmulationEnabled', { enabled: true });
    await b.choose('letter.tape');
    await b.ask('scrollTo(0, 0); 0');
    for (const button of ['#step', '#step', '#back']) {
        await b.press(button, 'touch');
    }
    await b.expect('Step, Step, Back', await b.text('orders'), '1');
    await openRow(b, 1, 'touch');
    await b.press(lamp(0), 'touch');
    await b.expect('a lamp under a finger', await b.ask('opened.word ^ opened.was'), 1 << 16);
    await b.press('#wordClose', 'touch');
    await b.press('#start', 'touch');
    await b.expect('Start', await b.text('orders'), '0');
    await b.send('Emulation.setTouchEmulationEnabled', { enabled: false });
    await b.unsize();
}

module.exports = { words, keys, rows, sounds, fingers };
