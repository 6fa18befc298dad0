'use strict';
// The slips that beginners make, typed as they type them, and what the page says of each in both languages.
const { pause } = require('./browser.js');
const { write, everywhere } = require('./hand.js');

const main = (...lines) => `segment main\n${lines.join('\n')}\nenter main\n`;

// For each slip the kind that is chosen, the text, the hint, what is marked, and which kind is offered.
const SLIPS = {
    'a label without its colon': ['isSource', main('O a F', 'Z F', 'a A F'), 'colon', 'a A F'],
    'a longer one': ['isSource', main('O letter F', 'Z F', 'letter A F'), 'colon', 'letter A F'],
    'curved quotes': ['isSource', main('Z F', 'text “HI”'), 'quote', '“'],
    'a no-break space': ['isSource', main('A\u00a05 F', 'Z F'), 'noBreak', '\u00a0'],
    'a dash for a minus': ['isSource', main('word –5', 'Z F'), 'dash', '–'],
    'a sign that nobody sees': ['isSource', main('Z F\u200b'), 'unseen', '\u200b'],
    'a letter of German in a comment': ['isSource', main('Z F ; für'), 'sign', 'ü'],
    '0 for O in a source': ['isSource', main('0 letter F', 'Z F', 'letter: A F'), 'zero', '0 letter F'],
    'O for 0 in a source': ['isSource', main('A 1O F', 'Z F'), 'oh', 'A 1O F'],
    'no segment': ['isSource', 'A 5 F\nZ F\nenter main\n', 'segment', 'A 5 F'],
    'no enter': ['isSource', 'segment own\nA 5 F\nZ F\n', 'enter', ''],
    'small letters on a tape': ['isTape', 'hello', 'lowerTape', 'h', 'source'],
    'labels on a tape': ['isTape', 'O a F\nZ F\na: A F\n', 'lowerTape', 'a', 'source'],
    'a source that is read as a tape': ['isTape1', main('Z F'), 'lowerTape', 's', 'source'],
    'a semicolon on a tape': ['isTape', 'T64K GK ZF ; stop\nEZPF', 'semicolon', ';'],
    'a no-break space on a tape': ['isTape', 'T64K\u00a0GK ZF EZPF', 'noBreak', '\u00a0'],
    '0 for O on a tape': ['isTape', 'T64K GK\n02@ ZF\nAF\nEZPF', 'tapeZero', '0'],
    'O for 0 on a tape': ['isTape', 'T6OK GK\nO2@ ZF\nAF\nEZPF', 'tapeOh', 'O'],
};

// What stands before the first value of a hint, and after it.
const textOf = (language, hint) => LANGUAGES[language].hint[hint].split(/\{\w+\}/).map((part) => part.trim());

async function slips(b) {
    await everywhere(b, async (language, where) => {
        for (const [what, [kind, text, hint, marked, offered]] of Object.entries(SLIPS)) {
            await b.click(kind);
            await write(b, '#text', text);
            const parts = await b.run(textOf, language, hint);
            await b.expect(
                `${where}, ${what}: the hint`,
                await b.text('refused'),
                (said) => parts.every((part) => said.includes(part)),
            );
            await b.click('mark');
            await b.expect(`${where}, ${what}: what is marked`,
                await b.run(() => [by('text').value.slice(by('text').selectionStart, by('text').selectionEnd), document.activeElement.id]),
                [marked, 'text']);
            await b.expect(`${where}, ${what}: what is offered`, await b.run(() => (by('switch').hidden ? undefined : by('switch').textContent)),
                offered && await b.run((name, form) => LANGUAGES[name].as[form], language, offered));
        }
        await b.click('isTape');
        await write(b, '#text', main('Z F'));
        await b.click('switch');
        await b.expect(
            `${where}: one click reads it as a source`,
            await b.ask('[page.program.kind, by("refusal").hidden]'),
            ['source', true],
        );
    });
    await b.expect('no example has such a slip', await b.run(() => EXAMPLES.filter(({ text, kind }) => (
        kind !== 'source' && slipOf(text, page.machine.items({ text, kind, small: false }).items))).map(({ name }) => name)), []);
    await b.ask('editor.isOwn = false; 0');
    await b.choose('letter.tape');
}

// How a program leaves its orders: past the last one, by a jump, or at once; and what is said of it.
const LEFT = {
    'no order Z': [main('X F', 'X F'), 'past.nothing', { from: 57, place: 58 }],
    'no order Z before a number': [main('X F', 'number: word 5'), 'past.number', { from: 56, place: 57 }],
    'a jump to nothing': [main('E 200 F', 'Z F'), 'jumped.nothing', { from: 56, place: 200 }],
    'a jump to a number': [main('E number F', 'Z F', 'number: word 5'), 'jumped.number', { from: 56, place: 58 }],
    'an entry at a number': [main('number: word 5', 'Z F'), 'entered.number', { place: 56 }],
};

async function endings(b) {
    await everywhere(b, async (language, where) => {
        await b.click('isSource');
        for (const [what, [text, key, values]] of Object.entries(LEFT)) {
            await write(b, '#text', text);
            await b.set('speed', '5');
            await b.click('run');
            await b.until('page.running === undefined');
            const wanted = await b.run((name, one, held) => new Words(name, LANGUAGES[name]).say(`left.${one}`, held), language, key, values);
            await b.expect(`${where}, ${what}: where it left its orders`, await b.run(() => [page.shown.ending, by('did').textContent]),
                ['no order', wanted]);
            await b.expect(
                `${where}, ${what}: that is seen`,
                await b.ask('by("did").checkVisibility() && by("did").getClientRects().length > 0'),
                true,
            );
            await b.expect(`${where}, ${what}: and heard`, await b.text('spoken'), (said) => said.endsWith(wanted));
        }
        await endless(b, language, where);
    });
    await b.ask('editor.isOwn = false; 0');
    await b.choose('letter.tape');
}

// A program that does not stop: that is said when its run is ended, or after a while, and with the places of its loop.
async function endless(b, language, where) {
    const textNow = () => by('did').textContent;
    const wanted = await b.run((name) => LANGUAGES[name].endless.split('{first}')[0].split('{orders}')[1], language);
    for (const [what, text, places] of [
        ['a loop', main('X F', 'next: X F', 'X F', 'E next F'), [57, 59]],
        ['a loop that prints', main('next: O mark F', 'E next F', 'mark: * F'), [56, 57]],
    ]) {
        await write(b, '#text', text);
        await b.set('speed', '3');
        await b.click('run');
        await b.until('page.shown.counter >= 56');
        await b.expect(
            `${where}, ${what}: nothing is said at first`,
            await b.run(textNow),
            (said) => !said.includes(wanted),
        );
        await b.ask('watch.since -= 8000; 0'); // milliseconds
        await b.expect(
            `${where}, ${what}: that it does not stop`,
            await b.until(`by("did").textContent.includes(${JSON.stringify(wanted)})`, 5),
            true,
        );
        await b.expect(
            `${where}, ${what}: and its places`,
            await b.run(textNow),
            (said) => places.every((place) => said.includes(place)),
        );
        await pause(600); // a second press at once would be the same wish
        await b.click('run');
        await b.expect(`${where}, ${what}: after Pause too`, await b.run(textNow), (said) => said.includes(wanted));
        await b.expect(`${where}, ${what}: and heard`, await b.text('spoken'), (said) => said.includes(wanted));
        await b.click('step');
        await b.expect(
            `${where}, ${what}: but not after a step`,
            await b.run(textNow),
            (said) => !said.includes(wanted),
        );
    }
    await write(b, '#text', main('A count F', 'next: S one F', 'U count F', 'E next F', 'Z F', 'count: word 20000', 'one: word 1'));
    await b.click('run');
    await b.until('page.shown.counter >= 56 && page.shown.orders > 500');
    await b.ask('watch.since -= 8000; 0'); // milliseconds
    await b.until('watch.isAsked');
    await pause(600);
    await b.expect(
        `${where}: nothing is said of a long program that stops`,
        await b.run(textNow),
        (said) => !said.includes(wanted),
    );
    await b.click('run');
}

module.exports = { slips, endings };
