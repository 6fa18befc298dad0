'use strict';
// Work that lasts: after a reload, after Back from another page, beside each button that would replace it; and the last five
// texts, which can be brought back.
const { press, write, writeOn, key, goTo, go, reload, everywhere } = require('./hand.js');

const OWN = 'segment mine\nO mark F\nZ F\nmark: * F\nenter mine\n';

async function lasting(b) {
    await everywhere(b, async (language, where) => {
        await goTo(b, '#example=letter.edsac&lesson=2');
        await press(b, '#isSource');
        await write(b, '#text', OWN);
        await writeOn(b, '; and more'); // it is kept at once, even if typing has not rested
        await reload(b);
        const wanted = [`${OWN}; and more`, 'source', true, '2', 'own', true];
        const now = () => b.ask('[by("text").value, page.program.kind, editor.isOwn, by("lesson").value, by("stories").value, isBench()]');
        await b.expect(`${where}: what was typed is there after a reload`, await now(), wanted);
        await b.send('Page.navigate', { url: 'data:text/html,<title>elsewhere</title>' });
        await b.until('document.title === "elsewhere"');
        await go(b);
        await b.expect(`${where}: and after Back from another page`, await now(), wanted);
        await b.speak(language);
        await b.send('Page.navigate', { url: `${b.page}?${Math.random()}` });
        await b.until('document.body !== null && document.body.dataset.ready !== undefined && location.search !== ""');
        await b.expect(
            `${where}: the page opened anew begins anew`,
            (await now()).slice(2),
            [false, '0', 'letter', false],
        );
        await b.speak(language);
        await press(b, '#undo');
        await press(b, '#former button');
        await b.expect(`${where}: but the work can be brought back`, (await now())[0], wanted[0]);
        await b.ask('editor.isOwn = false; 0');
        await go(b);
        await b.speak(language);
        await b.ask('editor.isOwn = false; 0');
    });
    await goTo(b, '#view=exhibit');
    await b.choose('letter.tape');
}

// Whatever would replace own work asks first, and a visitor who wants to keep it keeps it.
const REPLACES = {
    'a story, by keys': async (b) => { await b.ask('by("stories").focus(); 0'); await key(b, 'ArrowUp', 38); },
    'an example, by keys': async (b) => { await b.ask('by("examples").focus(); 0'); await key(b, 'ArrowDown', 40); },
    'Next story': async (b) => { await b.ask('by("invite").hidden = false; 0'); await press(b, '#inviteNext'); },
    'a link': (b) => goTo(b, `#example=hello.edsac&note=${Math.random()}`),
    'its tape, punched': (b) => press(b, '#punch'),
    'a text that is brought back': async (b) => { await b.ask('showFormer(false); 0'); await press(b, '#undo'); await press(b, '#former button'); },
    'a program of the lesson': async (b) => { await press(b, '#lessonPrograms button'); },
};

async function asked(b) {
    await everywhere(b, async (language, where) => {
        await goTo(b, '#view=exhibit');
        await goTo(b, '#example=letter.edsac&lesson=2&view=exhibit');
        await press(b, '#isSource');
        for (const [what, does] of Object.entries(REPLACES)) {
            await write(b, '#text', `${OWN}; ${what}\n`);
            await does(b);
            await b.expect(`${where}: ${what} asks first`, await b.ask('[by("ask").hidden, by("text").value, page.tour === undefined]'),
                [false, `${OWN}; ${what}\n`, true]);
            await b.click('keep');
            await b.expect(
                `${where}: ${what}: it is kept`,
                await b.ask('[by("ask").hidden, by("text").value]'),
                [true, `${OWN}; ${what}\n`],
            );
        }
        await b.click('show');
        await b.expect(`${where}: Show me shows the own text`,
            await b.ask('[page.tour !== undefined, page.tour.story.name, by("text").value.startsWith("segment mine")]'),
            [true, 'own', true]);
        await b.ask('halt(); editor.isOwn = false; 0');
        await named(b, where);
    });
    await b.choose('letter.tape');
}

// A name and Enter: own work is asked about; after that the story of the name goes on, and the change that Enter makes too
// does not end it.
async function named(b, where) {
    await goTo(b, `#story=name&note=${Math.random()}`);
    await write(b, '#text', `${OWN}; a name\n`);
    await b.ask('by("nameLabel").hidden = false; 0');
    await write(b, '#name', 'Ada');
    await b.key('Enter');
    await b.expect(
        `${where}: a name asks first`,
        await b.ask('[by("ask").hidden, page.tour === undefined]'),
        [false, true],
    );
    await b.click('replace');
    await b.expect(
        `${where}: then its story is told`,
        await b.ask('[page.tour !== undefined, by("text").value.includes("Prints ADA")]'),
        [true, true],
    );
    await press(b, '#tapeHead');
    await b.expect(`${where}: and goes on`, await b.ask('page.tour !== undefined'), true);
    await b.ask('halt(); 0');
}

// The last five texts by their first words. Those that were typed stay longest.
async function former(b) {
    await everywhere(b, async (language, where) => {
        await b.ask('forget(); enter(); 0');
        await goTo(b, `#example=letter.edsac&note=${Math.random()}`);
        for (let k = 1; k <= 6; k++) {
            await write(b, '#text', `segment text${k}\nX F\nenter text${k}\n`);
            await goTo(b, `#example=${k % 2 ? 'hello' : 'sort'}.edsac&note=${k}`);
            await b.click('replace');
        }
        await b.expect(`${where}: the list is closed`, await b.ask('by("former").hidden'), true);
        await press(b, '#undo');
        const heads = () => b.run(() => [...by('former').children].map((button) => button.textContent));
        await b.expect(
            `${where}: the last five`,
            await heads(),
            [6, 5, 4, 3, 2].map((k) => `segment text${k} X F enter text${k}`),
        );
        await b.expect(`${where}: what the list says is seen`, await b.run(() => [...by('former').children].every((button) => (
            button.checkVisibility() && button.scrollWidth <= button.clientWidth + 1))), true);
        await press(b, '#former button:nth-child(3)');
        await b.expect(
            `${where}: one of them`,
            await b.ask('[by("text").value.slice(0, 13), by("former").hidden, editor.isOwn]'),
            ['segment text4', true, true],
        );
        await reload(b);
        await b.speak(language);
        await b.expect(
            `${where}: they are there after a reload`,
            await b.ask('[by("undo").disabled, kept.former.length]'),
            [false, 5],
        );
        await b.ask('editor.isOwn = false; 0');
    });
    await b.ask('forget(); enter(); 0');
    await b.choose('letter.tape');
}

// What is kept when a tab is hidden, what is heard of the list of texts, and the own text that is chosen again.
async function hidden(b) {
    await b.ask('forget(); enter(); 0');
    await goTo(b, `#example=letter.edsac&note=${Math.random()}`);
    await write(b, '#text', OWN);
    await writeOn(b, '; and more');
    await b.ask('document.dispatchEvent(new Event("visibilitychange")); 0');
    await b.expect('a tab that is hidden keeps what was typed', await b.ask('sessionStorage.getItem("edsac").includes("; and more")'), true);
    await b.until('editor.timer === undefined');
    await writeOn(b, '; at once');
    await goTo(b, '#example=sort.edsac');
    await b.click('replace');
    await b.expect('a text that is put in its place was not typed', await b.ask('editor.timer === undefined'), true);
    await go(b);
    await b.expect('what was typed just before a link is there after Back', await b.ask('by("text").value'), `${OWN}; and more; at once`);
    await goTo(b, '#example=hello.edsac');
    await b.click('replace');
    const isOpen = 'by("undo").getAttribute("aria-expanded")';
    const closed = await b.ask(isOpen);
    await press(b, '#undo');
    await b.expect('whether the list of texts is open is heard', [closed, await b.ask(isOpen)], ['false', 'true']);
    await press(b, '#undo');
    await b.ask('by("examples").focus(); 0');
    for (let k = await b.ask('by("examples").selectedIndex'); k > 0; k--) {
        await b.key('ArrowUp');
    }
    await b.expect('your own in the list of programs', await b.ask('[by("text").value, editor.isOwn]'), [`${OWN}; and more; at once`, true]);
    await b.ask('editor.isOwn = false; forget(); enter(); 0');
    await goTo(b, '#story=name&view=exhibit');
    await write(b, '#name', 'Bob');
    await b.key('Enter');
    await b.ask('halt(); 0');
    await reload(b);
    await b.expect('the story of a name is there after a reload, with its box', await b.ask('[by("stories").value, by("name").value, by("nameLabel").hidden]'),
        ['name', 'Bob', false]);
    await b.ask('forget(); enter(); 0');
    await goTo(b, '#view=exhibit');
    await b.choose('letter.tape');
}

// Where the session's store is forbidden, or is full, all goes on without it; a kiosk keeps nothing.
async function unkept(b) {
    const was = b.session;
    const forbidden = 'Object.defineProperty(window, "sessionStorage", { get() { throw new DOMException("no", "SecurityError"); } });';
    const full = 'Storage.prototype.setItem = () => { throw new DOMException("full", "QuotaExceededError"); };';
    for (const [what, source] of Object.entries({ forbidden, full })) {
        await b.open('#example=letter.edsac', () => b.send('Page.addScriptToEvaluateOnNewDocument', { source }));
        await press(b, '#isSource');
        await write(b, '#text', OWN);
        await goTo(b, '#example=hello.edsac');
        await b.click('replace');
        await press(b, '#undo');
        await press(b, '#former button');
        await b.expect(`a store that is ${what}: texts are brought back`, await b.ask('by("text").value'), OWN);
        await reload(b);
        await b.expect(`a store that is ${what}: the page begins anew`, await b.ask('[by("text").value === "", document.body.dataset.ready !== "never"]'),
            [false, true]);
    }
    await b.open('#kiosk=60,quiet&example=letter.edsac');
    await b.ask('halt(); 0');
    await write(b, '#text', OWN);
    await goTo(b, '#kiosk=60,quiet&lang=en');
    await write(b, '#text', OWN);
    await b.ask('dispatchEvent(new Event("pagehide")); 0');
    await b.expect('a kiosk keeps nothing', await b.ask('[sessionStorage.length, history.state]'), [0, null]);
    await b.ask('page.kiosk.reset(); 0');
    await b.expect(
        'and forgets at its reset',
        await b.ask('[by("text").value.includes("segment mine"), kept.former.length, by("undo").disabled]'),
        [false, 0, true],
    );
    b.session = was;
}

module.exports = { parts: { lasting, asked, former, hidden }, unkept };
