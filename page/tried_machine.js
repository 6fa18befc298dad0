'use strict';
// What a visitor does with the machine: its buttons and keys, the loader, the examples, and faulty texts.

async function firstTape(b) {
    await b.expect('on opening, why 1949 matters, and what to press', [await b.text('done'), await b.text('did')],
        [await b.ask('page.words.say("told.why")'), 'The tape is under the reader. Press Show me, or go order by order with Step.']);
    await b.click('start');
    await b.expect('at Start no order is done', [await b.text('orders'), await b.text('counter')], ['0', '0']);
    await b.expect('Start is seen', [await b.text('did'), (await b.pixels('lit')) > 100],
        ['Start: the store was cleared, and the machine put 41 orders into places 0 to 40. They are the loader.', true]);
    await b.expect('the first of the Initial Orders', await b.text('order'), 'TF  00101000000000000');
    await b.expect(
        'what it does',
        await b.text('meaning'),
        "Put the accumulator's number into place 0, then make the accumulator 0.",
    );
    await b.click('step', 9);
    await b.expect('nine Steps', [await b.text('orders'), await b.text('order')], ['9', 'I40D  01000000001010001']);
    await b.expect(
        'then the tape',
        await b.text('meaning'),
        'Read the next row of the tape, and put its number into places 40 and 41.',
    );
    await b.click('step');
    await b.expect('a row is read', await b.text('did'), (said) => said.includes('A row of the tape was read: T.'));
    await b.expect(
        'a step is announced',
        await b.text('spoken'),
        (said) => said.includes('A row of the tape was read: T.') && said.includes('Next, at place 35'),
    );
    await b.set('at', '192');
    await b.expect('go to order', await b.text('orders'), '192');
    await b.expect('the program stands at its stop', await b.text('meaning'), 'Stop, and ring the bell.');
    await b.expect('A is printed', await b.text('paper'), 'A');
    await b.click('step');
    await b.expect('the stop', [await b.text('counter'), await b.text('ending'), await b.text('run')],
        ['66', 'The bell rings: the machine has stopped. Press Start again. Step goes on past the stop.', 'Start again']);
    const before = await b.ask('[...page.machine.picture(page.program, 183).words].join()');
    await b.click('back', 10);
    await b.expect(
        'ten Backs',
        [await b.text('orders'), await b.ask('[...page.shown.words].join()') === before],
        ['183', true],
    );
    await b.click('start');
    await b.expect('Start', await b.text('orders'), '0');
}

// What an order moves is seen to move, and leaves a trail; not after Back.
async function moves(b) {
    const seen = '[page.moves.map((move) => move.kind).join(), document.querySelectorAll("#trails .head").length]';
    for (const [order, kind] of [[5, 'stored'], [6, 'added'], [10, 'read'], [49, 'jumped'], [192, 'printed']]) {
        await b.set('at', String(order - 1));
        await b.expect('nothing moves before an order', await b.ask(seen), ['', 0]);
        await b.click('step');
        await b.expect(`order ${order}`, await b.ask(seen), [kind, 1]);
        await b.click('back');
        await b.expect('nothing moves back', await b.ask(seen), ['', 0]);
    }
    await b.expect(
        'the program is read in the lens',
        await b.run(() => [64, 65, 66].map((place) => [...lens.rowOf(place).cells].map((cell) => cell.textContent).join(' '))),
        ['64  O66F print the sign in 66', '65  ZF stop', '66  AF the code of A'],
    );
    await b.click('start');
}

async function loaderOnItself(b) {
    await b.set('at', '48');
    await b.expect('the loader changes its own order', await b.text('did'),
        (said) => said.includes('The loader changed one of its own orders: place 22 was T44F and is now T64F.'));
    await b.expect('the word is lit', await b.pixels('band'), (lit) => lit > 10);
}

async function examples(b) {
    const squares = '1\n4\n9\n16\n25\n36\n49\n64\n81\n100\n';
    for (const [name, printed, orders] of [['name.tape', 'EDSAC', '426'], ['squares.edsac', squares, '4,650']]) {
        await b.choose(name);
        await b.set('speed', '5');
        await b.click('run');
        await b.expect(`${name} runs to its end`, await b.until(`page.shown.ending === 'stopped'`), true);
        await b.expect(`${name}: the teleprinter`, [await b.text('paper'), await b.text('orders')], [printed, orders]);
    }
    await b.ask(`by('run').click(); 0`);
    await b.expect(
        'Start again begins at Start',
        await b.until(`page.shown.ending === 'stopped' && page.shown.orders === 4650`),
        true,
    );
    await b.ask(`document.getElementById('listingBox').open = true; 0`);
    await b.expect(
        'the listing',
        await b.until(`document.getElementById('listing').textContent.includes('\\n  56 ')`),
        true,
    );
    await b.set('at', '3401');
    await b.expect(
        'its line at work is marked',
        await b.run(() => [...document.querySelectorAll('#listing .here')].map((line) => line.dataset.place)),
        ['56'],
    );
    await b.set('at', '4000');
    await b.ask(`document.getElementById('lookBox').open = true; 0`);
    await b.expect('the table of figures', await b.until(`document.querySelectorAll('#look tr').length === 33`), true);
    await b.set('figures', 'fraction');
    await b.expect('the registers in decimal', await b.text('multiplier'), (said) => /^-?[0-9.e-]+$/.test(said));
    await b.expect('the last printed code', await b.text('last'), (said) => /^(\S {2}[01]{5}|nothing yet)$/.test(said));
    await b.set('figures', 'asIs');
    await b.ask(`document.getElementById('lookBox').open = document.getElementById('listingBox').open = false; 0`);
}

async function faults(b) {
    await b.choose('letter.edsac');
    const source = await b.ask(`document.getElementById('text').value`);
    const line = source.split('\n').findIndex((text) => text.startsWith('Z F ')) + 1;
    await b.set('text', source.replace('Z F ', 'Z Q '), 'input');
    await b.expect('nothing is refused while keys are typed', await b.ask('by("refusal").hidden'), true);
    await b.until('editor.timer === undefined');
    await b.expect('a faulty source', await b.text('refused'),
        (said) => said.startsWith(`The machine refuses this text: line ${line}: S3 not a statement. The machine does not know`));
    await b.expect(
        'its line is coloured',
        await b.ask(`[...document.querySelectorAll('.faulty')].map((node) => node.textContent).join('').includes('Z')`),
        true,
    );
    await b.click('mark');
    await b.expect('its line is marked', await b.ask(`(() => { const box = document.getElementById('text');
        return box.value.slice(box.selectionStart, box.selectionEnd).startsWith('Z Q'); })()`), true);
    await b.expect('no picture', await b.text('orders'), '');
    const places = await b.ask(`by('lookBox').open = true; by('tank').value = '3'; by('tank').onchange(); 0`);
    await b.expect('Places of a refused text', places, 0);
    await b.ask(`by('lookBox').open = false; 0`);
    await b.type(source);
    await b.expect(
        'mended',
        [await b.ask(`document.getElementById('refusal').hidden`), await b.text('orders')],
        [true, '0'],
    );
    await b.choose('letter.tape');
    await b.type('T64K ?');
    await b.expect(
        'a faulty tape',
        await b.text('refused'),
        (said) => said.startsWith('The machine refuses this text: byte 5: T1 no row.'),
    );
    await b.type('T64K \u{1F469}\u200D\u{1F52C}x');
    await b.click('mark');
    await b.expect(
        'an emoji stays whole',
        await b.ask(`by('text').value.slice(by('text').selectionStart, by('text').selectionEnd)`),
        '\u{1F469}\u200D\u{1F52C}',
    );
    await b.type('T64K GK .F EZPF');
    await b.set('at', '1000');
    await b.expect('a run that ends at the end of its tape', await b.text('ending'), (said) => said.length > 20);
    await b.type('');
    await b.set('at', '1000');
    await b.expect(
        'an empty tape',
        await b.text('ending'),
        'The machine waits: it wants another row, and the tape is at its end.',
    );
    const kinds = await b.run(() => [new Error('odd'), new RangeError('x'), new WebAssembly.RuntimeError('out of memory')]
        .map((fault) => faultOf(fault).ending));
    await b.expect('what an exception means', kinds, ['fault', 'no memory', 'no memory']);
    const thrown = await b.run(() => {
        page.machine.goOn = () => { throw new TypeError('odd'); };
        look(3);
        const said = by('ending').textContent;
        delete page.machine.goOn;
        begin();
        return said;
    });
    await b.expect(
        'and is told as what it is',
        thrown,
        'This page has a fault of its own. Load it again. (What the browser says: odd)',
    );
    const memory = await b.run(() => {
        const none = { status: 10, ending: 'no memory', note: '', out: new Uint8Array(0) };
        Object.assign(page.machine, { picture: () => none, rows: () => none });
        begin();
        const said = [by('ending').textContent, by('refused').textContent].map((text) => text.slice(0, 28));
        const off = ['step', 'back', 'run', 'show', 'at', 'punch'].filter((id) => !by(id).disabled);
        delete page.machine.picture;
        delete page.machine.rows;
        begin();
        return [said, off, by('refusal').hidden, isAlive()];
    });
    const gave = 'The browser gave no memory f';
    await b.expect('no memory for a picture, and then some', memory, [[gave, gave], [], true, true]);
    const told = await b.run(() => {
        const faults = [new WebAssemblyMissing(), new WebAssembly.CompileError('x'), new TypeError('odd')];
        const all = faults.map((fault) => {
            tellFault(fault);
            return by('meaning').textContent.slice(0, 25);
        });
        showMain(true);
        document.body.dataset.ready = 'wide';
        begin();
        return all;
    });
    await b.expect(
        'a page that does not load says why',
        told,
        ['This browser is too old f', 'This browser is too old f', 'This page has a fault of '],
    );
}

async function otherForms(b) {
    await b.choose('squares.edsac');
    const rows = await b.ask('[...page.rows].join()');
    await b.set('at', '3500');
    await b.ask(`by('traceBox').open = true; drawTrace(); 0`);
    const lines = (await b.text('trace')).split('\n');
    await b.expect('the last orders', [lines.length, lines[11].trim().split(/\s+/)[0]], [12, '3,500']);
    await b.ask(`by('traceBox').open = false; 0`);
    const state = await b.ask('[...page.machine.picture(page.program, 4000).words].join()');
    await b.click('punch');
    await b.expect(
        'the tape of a source has the same rows',
        [await b.ask('page.program.kind'), await b.ask('[...page.rows].join()') === rows],
        ['tape', true],
    );
    await b.expect(
        'and the same run',
        await b.ask('[...page.machine.picture(page.program, 4000).words].join()') === state,
        true,
    );
    await b.expect(
        'an item on each line',
        await b.ask('by("text").value.split("\\n").slice(0, 3)'),
        ['T56K', 'GK', 'T25@'],
    );
    await b.click('undo');
    await b.press('#former button');
    await b.click('isTape');
    await b.expect(
        'a source that is read as a tape',
        await b.ask('[by("refusal").hidden, by("switch").hidden, by("switch").textContent]'),
        [false, false, 'Read it as a source'],
    );
    await b.click('switch');
    await b.expect('goes on as a source', await b.ask('[by("refusal").hidden, page.program.kind]'), [true, 'source']);
    await b.ask('editor.isOwn = false; 0');
}

module.exports = { firstTape, moves, loaderOnItself, examples, faults, otherForms };
