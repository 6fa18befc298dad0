'use strict';
// Post-mortems, texts for another loader, a visitor's own work, and runs to their ends, far on and back.
const fs = require('fs');
const { pause } = require('./browser.js');
const { expectWithin } = require('./busy.js');

// A post-mortem of a run that has stopped, in both languages; places that it can't print; and none of a tape of May 1949.
async function postMortem(b) {
    await b.choose('squares.edsac');
    await b.set('at', '100000');
    await b.ask(`by('pmBox').open = true; 0`);
    await b.set('pmFirst', '144');
    await b.set('pmCount', '3');
    await b.click('pmPrint');
    const wanted = await b.run(() => [144, 145, 146]
        .map((place) => page.machine.order(page.shown.words[place]).replace(/^.(?=[FD])/, '$&0')).join('\n'));
    await b.expect('a post-mortem', [await b.text('pm'), await b.text('pmSaid')],
        [wanted, 'Printed of the store after 4,650 orders.']);
    const printed = '[by("pm").textContent, by("pmSaid").textContent !== ""]';
    await b.size(900, 700);
    await b.until('innerWidth === 900');
    await b.unsize();
    await b.expect('it stays in a window of another size', await b.ask(printed), [wanted, true]);
    await b.press('#traceBox > summary');
    await b.until('by("trace").textContent !== ""');
    await b.expect('it stays when a part is opened', await b.ask(printed), [wanted, true]);
    await b.press('#traceBox > summary');
    await b.speak('de');
    await b.expect('and is said in German', [await b.text('pm'), await b.text('pmSaid')],
        [wanted, 'Das stand nach 4.650 Befehlen im Speicher.']);
    await b.speak('en');
    await b.click('back');
    await b.expect('it is of one picture alone', await b.ask(printed), ['', false]);
    await b.set('at', '100000');
    await b.set('pmFirst', '100');
    await b.click('pmPrint');
    await b.expect('places that it can not print', [await b.text('pm'), await b.text('pmSaid')],
        ['', 'It can print places 144 to 1023.']);
    await b.set('pmFirst', '144');
    await b.choose('squares.tape1');
    await b.expect('none of a tape of May 1949', await b.ask(`by('pmPrint').disabled`), true);
    await b.set('at', '1471');
    await b.expect('whose orders are written with S and L', await b.text('place'), (said) => /: [A-Z]\d*[SL]$/.test(said));
    await b.ask(`by('pmBox').open = false; 0`);
    await b.choose('letter.tape');
}

// A text that is meant for another loader is recognised, and one click goes on with that loader.
async function otherLoaders(b) {
    const seen = '[by("refusal").hidden, by("switch").hidden, by("switch").textContent, page.program.kind]';
    for (const [name, kind, box, says] of [
        ['squares.tape1', 'tape1', 'isTape', 'Read it as a tape of May 1949'],
        ['squares.tape1', 'tape1', 'isSource', 'Read it as a tape of May 1949'],
        ['letter.tape', 'tape', 'isTape1', 'Read it as a tape'],
        ['hello.edsac', 'source', 'isTape1', 'Read it as a source'],
    ]) {
        await b.choose(name);
        await b.expect(`${name} is read by its loader`, await b.ask(seen), (told) => told[0] === true && told[3] === kind);
        await b.click(box);
        await b.expect(`${name} as something else`, (await b.ask(seen)).slice(0, 3), [false, false, says]);
        await b.click('switch');
        await b.expect(`${name} goes on`, await b.ask(seen), (told) => told[0] === true && told[3] === kind);
    }
    await b.choose('squares.tape1');
    await b.expect('the small store is not for it', await b.ask('[by("small").disabled, page.program.small]'), [true, false]);
    await b.expect('31 orders', await b.text('did'),
        'Start: the store was cleared, and the machine put 31 orders into places 0 to 30. They are the loader of May 1949. '
        + 'Its programs begin at place 31.');
    await b.choose('letter.tape');
    await b.expect('and is for others', await b.ask('by("small").disabled'), false);
}

async function ownWork(b) {
    await b.choose('letter.tape');
    await b.type('T64K GK ZF EZPF');
    await b.set('examples', '1');
    await b.expect(
        'own work is asked about',
        await b.ask('[by("ask").hidden, by("text").value]'),
        [false, 'T64K GK ZF EZPF'],
    );
    await b.click('keep');
    await b.expect(
        'and kept',
        await b.ask('[by("ask").hidden, by("text").value, by("examples").value]'),
        [true, 'T64K GK ZF EZPF', ''],
    );
    await b.set('examples', '1');
    await b.click('replace');
    await b.expect('or replaced', await b.ask('by("text").value !== "T64K GK ZF EZPF"'), true);
    await b.click('undo');
    await b.press('#former button');
    await b.expect('and brought back', await b.ask('by("text").value'), 'T64K GK ZF EZPF');
    await b.ask('editor.isOwn = false; 0');
    await b.choose('hello.edsac');
    await b.choose('letter.tape');
    await b.click('undo');
    await b.press('#former button');
    await b.expect('an example that was replaced is brought back too', await b.ask('by("text").value === EXAMPLES.find(({ name }) => name === "hello.edsac").text'), true);
    await b.choose('letter.edsac');
    const classes = await b.run(() => [...document.querySelectorAll('#colours span')].map((node) => node.className));
    await b.expect(
        'orders, labels and comments are coloured',
        classes,
        (all) => ['comment', 'label', 'order', 'word'].every((name) => all.includes(name)),
    );
    await b.expect(
        'the colours hold the same text',
        await b.ask(`by('colours').textContent === by('text').value + '\\n'`),
        true,
    );
}

async function runs(b) {
    await b.choose('endless.tape');
    await b.set('speed', '5');
    await b.set('at', '900000');
    await b.click('run');
    await b.expect('a run goes on', await b.until('page.shown.orders > 1000000 && page.running !== undefined'), true);
    await b.click('run');
    const at = await b.text('orders');
    await pause(200);
    await b.expect('Pause', await b.text('orders'), at);
    const jump = await b.run(() => {
        begin();
        page.running = { due: 0, last: 0 };
        by('speed').value = '3';
        frame(600000);
        const at = page.shown.orders;
        halt();
        draw();
        return at;
    });
    await b.expect(
        'a tab that was hidden for ten minutes goes on where it was',
        jump,
        (orders) => orders > 0 && orders <= 163,
    );
    await b.set('at', '999999999');
    await b.expect(
        'no further than the program',
        [await b.text('orders'), (await b.text('ending')).length > 10],
        ['100,000,000', true],
    );
    await b.choose('letter.tape');
    await b.ask('document.activeElement.blur(); 0');
    for (const [name, wanted] of [['s', '1'], ['s', '2'], ['b', '1'], ['0', '0']]) {
        await b.key(name);
        await b.expect(`the key ${name}`, await b.text('orders'), wanted);
    }
    await b.click('more');
    await b.click('more');
    await b.click('keys');
    await b.key('s');
    await b.expect('keys that are turned off', await b.text('orders'), '0');
    await b.click('keys');
    await b.key('s');
    await b.expect('and on again', await b.text('orders'), '1');
    await b.ask(`by('moreBox').open = false; 0`);
}

const FROZEN = 100; // milliseconds

async function longPaper(b) {
    await b.choose('letter.tape');
    await b.type(fs.readFileSync('bench/print.tape', 'utf8'));
    const ms = await b.run(() => {
        const since = performance.now();
        look(100000000);
        return performance.now() - since;
    });
    const [all, laid] = await b.ask('[page.shown.printed, by("paper").textContent.length]');
    const memory = await b.ask('page.machine.exports.memory.buffer.byteLength');
    const took = `run and drawn in ${ms.toFixed(0)} ms; the memory has ${memory >> 20} MiB`;
    console.log(`  a paper of ${all} codes: ${laid} characters of it laid out; ${took}`);
    await b.expect('the paper is full', [all, await b.ask('page.shown.ending')], [1000000, 'paper full']);
    await b.expect('the memory stays below its most', memory, (bytes) => bytes < 32 << 20);
    await b.expect('a long paper is not laid out whole', [laid > 5000, laid < 8200], [true, true]);
    const back = await b.run((longest, most) => { // other work on the processor disturbs a measure
        let least = Infinity;
        for (let k = 0; k < 5 || (least >= longest && k < most); k++) {
            const since = performance.now();
            look(page.shown.orders - 1);
            least = Math.min(least, performance.now() - since);
        }
        return least;
    }, FROZEN, 25);
    await expectWithin(b, 'a step back from a long paper doesn\'t freeze the page', back, FROZEN);
    await b.choose('letter.tape');
}

// Order 50,000,000, and back by 200 orders, one after the other.
async function farOn(b) {
    await b.choose('endless.tape');
    const far = await b.run(() => {
        const since = performance.now();
        look(50000000);
        return performance.now() - since;
    });
    await b.expect('order 50,000,000', await b.text('orders'), '50,000,000');
    const backs = await b.run(() => Array.from({ length: 200 }, () => {
        const since = performance.now();
        back();
        return performance.now() - since;
    }).sort((one, two) => one - two));
    await b.expect('and 200 orders back', await b.text('orders'), '49,999,800');
    const state = ({ words, acc, counter }) => [[...words].join(), String(acc), counter].join();
    await b.expect(
        'the state there is that of a picture from Start',
        await b.ask(`(${state})(page.shown) === (${state})(page.machine.picture(page.program, 49999800))`),
        true,
    );
    const [middle, most] = [backs[100], backs[199]].map((ms) => ms.toFixed(1));
    console.log(`  order 50,000,000 in ${far.toFixed(0)} ms, and one order back in ${middle} ms, at most ${most}`);
    await expectWithin(b, 'one order back in 50 ms', backs[0], 50);
    await b.click('start');
    await b.set('at', '1000');
    await b.choose('letter.tape');
}

module.exports = { postMortem, otherLoaders, ownWork, runs, longPaper, farOn };
