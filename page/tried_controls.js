'use strict';
// The controls of the machine, of the boxes below it and of the text: what each is called, when it can be pressed, and what it
// does where a visitor presses it at another moment than usual.
const { pause, CONTROL } = require('./browser.js');

const PACES = ['1 order a second', '5 a second', '50 a second', '650, as in 1949', '10,000 a second', '100,000 a second'];

// What a visitor finds on opening: the speed, the bell, the keys, and the list of programs from the easiest on.
async function atFirst(b) {
    await b.open('');
    await b.expect('the speed on opening', await b.text('pace'), PACES[2]);
    await b.expect('the bell and the keys are on', await b.ask('[by("sound").checked, by("keys").checked]'), [true, true]);
    await b.ask('by("speed").focus(); 0');
    const paces = [];
    for (const key of ['ArrowLeft', 'ArrowLeft', 'ArrowRight', 'ArrowRight', 'ArrowRight', 'ArrowRight', 'ArrowRight']) {
        await b.key(key);
        paces.push(await b.text('pace'));
    }
    await b.expect('each speed has its name', paces, [1, 0, 1, 2, 3, 4, 5].map((k) => PACES[k]));
    await b.expect('and is heard by it', await b.ask('by("speed").getAttribute("aria-valuetext")'), PACES[5]);
    await b.expect('the first programs', await b.run(() => EXAMPLES.slice(0, 3).map(({ name }) => name)), ['letter.tape', 'name.tape', 'digits.tape']);
    await b.expect('each is described in a few words', await b.run(() => [...by('examples').options].map(({ text }) => text).filter((text) => text.length > 140)), []);
    await b.expect('a post-mortem begins where it may', await b.ask('[by("pmFirst").value, by("pmFirst").min]'), ['144', '144']);
    await b.expect('files of each kind can be chosen', await b.ask('by("file").accept.split(",").sort()'),
        ['.edsac', '.tape', '.tape1', '.txt', 'text/plain']);
    await b.expect('the policy of the page', await b.ask('document.querySelector("meta[http-equiv]").content'),
        (said) => ["default-src 'none'", "form-action 'none'", "base-uri 'none'"].every((part) => said.includes(part)));
    await b.expect('the box for a name says what it is for', await b.ask('by("name").placeholder'), 'Your name');
    await b.expect('the page has two schemes and a language', await b.run(() => [
        document.querySelector('meta[name=color-scheme]').content, document.documentElement.lang]), ['light dark', 'en']);
}

// Which buttons can be pressed, and what they are called: at Start, at the end of a tape, in a story, in a run.
async function atEnds(b) {
    const pressed = (...ids) => b.run((all) => all.map((id) => !by(id).disabled), ids);
    await b.choose('letter.tape');
    await b.expect('at Start: Back, Step, Run, Punch', await pressed('back', 'step', 'run', 'punch'), [false, true, true, false]);
    await b.choose('letter.edsac');
    await b.expect('a source can be punched', await pressed('punch'), [true]);
    await b.choose('letter.tape');
    await b.type('T64K GK .F EZPF');
    await b.set('at', '100000');
    await b.expect('where the tape is at its end: Back, Step', await pressed('back', 'step'), [true, false]);
    await b.ask('editor.isOwn = false; 0');
    await b.choose('letter.tape');
    const told = '[by("show").textContent, by("skip").hidden, by("speed").parentElement.hidden, by("show").classList.contains("first")]';
    await b.click('show');
    await b.expect('in a story', await b.ask(told), ['Stop this', false, true, false]);
    await pause(600); // a second press at once would be the same wish
    await b.click('show');
    await b.expect('after it', await b.ask(told), ['Show me', true, false, true]);
    await b.set('stories', 'fault');
    await b.ask('page.hurry = 0.001; 0');
    await pause(600);
    await b.click('show');
    await b.until('page.tour === undefined && !by("invite").hidden');
    await b.expect('at its end', await b.ask(told), ['Show me', true, false, true]);
    await b.click('inviteNext');
    await b.expect('after the last story comes the first one', await b.ask('by("stories").value'), 'letter');
    await b.ask('halt(); page.hurry = 1; 0');
    await b.choose('letter.tape');
}

// What is pressed on the stage while something is under way: the map, a row, a name that is too long, a word below 0.
async function onStage(b) {
    await b.choose('endless.tape');
    await b.click('run');
    await b.expect('in a run', await b.text('run'), 'Pause');
    await b.press('#lens tr:nth-child(3) button');
    await b.expect('a word that is opened ends the run', await b.ask('[page.running === undefined, by("run").textContent, by("word").hidden]'),
        [true, 'Run', false]);
    await b.press('#wordClose');
    await b.choose('letter.tape');
    await b.set('at', '193');
    const [x, y] = await b.run(() => {
        const { left, top } = by('store').getBoundingClientRect(), plan = store.plan(32), [across, down] = store.corner(plan, 33);
        return [left + across + plan.dot, top + down + plan.high / 2];
    });
    await b.point(x, y);
    await b.expect('a press on the map, at place 67', await b.ask('[page.peek, by("tank").value, by("lookBox").open, lens.places.includes(67)]'),
        [67, '2', true, true]);
    await b.expect('until the next picture', await b.ask('step(); page.peek === undefined'), true);
    await b.ask('by("lookBox").open = false; follow(true); 0');
    await b.type('T64K GK A2@ ZF B5F EZPF');
    await b.set('at', '300');
    await b.ask('page.peek = 66; draw(); openWord(66); 0');
    await b.expect('a word below 0 has two numbers', await b.text('wordNumber'), (said) => /-\d/.test(said) && /\d{2},\d{3}.*\d{2},\d{3}/.test(said));
    await b.press('#wordClose');
    await b.ask('editor.isOwn = false; 0');
    await b.set('stories', 'name');
    await b.ask('typeName(""); 0');
    for (let k = 0; k < 14; k++) {
        await b.press('#letters button:nth-child(2)');
    }
    await b.expect('a name of the keys has at most twelve letters', await b.text('typed'), 'B'.repeat(12));
    await b.write('#name', 'ABCDEFGHIJKLMNOP');
    await b.expect('and so has a name that is typed', await b.ask('by("name").value'), 'ABCDEFGHIJKL');
    await b.ask('document.activeElement.blur(); 0');
    await b.set('name', '');
    await b.choose('hello.edsac');
    await b.expect('with an example the box for a name is gone', await b.ask('by("nameLabel").hidden'), true);
    await b.set('stories', 'letter');
}

// The boxes below the machine: the table of a tank, Go to order, More, and what is heard.
async function boxesBelow(b) {
    await b.choose('letter.tape');
    await b.ask('by("lookBox").open = true; 0');
    const first = '[...by("look").rows][1].cells[0].textContent';
    await b.set('tank', '3');
    await b.expect('the table of a tank', await b.ask(`[${first}, by("follow").getAttribute("aria-pressed")]`), ['96', 'false']);
    await b.click('follow');
    await b.set('at', '193');
    await b.expect('it follows the machine', await b.ask(`[${first}, by("tank").value]`), ['64', '2']);
    const places = () => b.ask('[by("tank").options.length, by("tank").options[1].text.match(/\\d+/g)]');
    await b.expect('32 tanks', await places(), [32, ['32', '63']]);
    await b.click('small');
    await b.expect('16 in the small store', await places(), [16, ['32', '63']]);
    await b.click('small');
    await b.ask('by("lookBox").open = false; 0');
    await b.click('more');
    await b.choose('endless.tape');
    await b.click('run');
    await b.write('#at', '77');
    await pause(300);
    await b.expect('what is typed into Go to order stays while a run goes on', await b.ask('[page.running !== undefined, by("at").value]'), [true, '77']);
    await b.key('Enter');
    await b.expect('and leads there', await b.ask('[page.running === undefined, page.shown.orders]'), [true, 77]);
    await b.ask('by("moreBox").open = false; document.activeElement.blur(); 0');
    await b.click('step');
    await b.expect('a step is heard', await b.text('spoken'), (said) => said !== '');
    await b.speak('de');
    await b.expect('and not again after a change of the language', await b.text('spoken'), '');
    await b.speak('en');
    await b.choose('squares.edsac');
    await b.set('speed', '5');
    await b.click('run');
    await b.until('page.running === undefined');
    await b.set('at', '300');
    await b.ask('look(4650, pictureAt(0)); 0');
    await b.expect('the map names some of many changed places', await b.ask('by("store").getAttribute("aria-label").match(/\\d+/g).length'), (count) => count < 20);
    await b.set('speed', '2');
    await b.choose('letter.tape');
}

// The text: what typing does to a run, what Step and Enter do to a text that was just typed, and what is seen of it.
async function inText(b) {
    const own = 'T64K GK X@ ZF EZPF';
    await b.choose('endless.tape');
    await b.click('run');
    await b.press('#text');
    await b.key('End', CONTROL);
    await b.send('Input.insertText', { text: '[x]' });
    await b.expect('typing ends a run', await b.ask('page.running === undefined'), true);
    await b.set('text', own, 'input');
    await b.click('step');
    await b.expect('Step reads what was just typed', await b.ask('[page.program.text, page.shown.orders]'), [own, 1]);
    await b.write('#text', 'T64K');
    await b.key('Enter');
    await b.expect('Enter begins a line', await b.ask('[by("text").value, page.running === undefined]'), ['T64K\n', true]);
    await b.type('T64K ?');
    await b.expect('a refused text is heard as wrong', await b.ask('by("text").getAttribute("aria-invalid")'), 'true');
    await b.type(own);
    await b.expect('and no other', await b.ask('by("text").getAttribute("aria-invalid")'), 'false');
    const colours = () => b.run(() => [getComputedStyle(by('text')).color, getComputedStyle(by('colours')).visibility]);
    await b.expect('a text is seen once, by its colours', await colours(), ['rgba(0, 0, 0, 0)', 'visible']);
    await b.send('Emulation.setEmulatedMedia', { features: [{ name: 'forced-colors', value: 'active' }] });
    await b.expect('or where the system has its own, by those', await colours(), ([colour, seen]) => colour !== 'rgba(0, 0, 0, 0)' && seen === 'hidden');
    await b.send('Emulation.setEmulatedMedia', { features: [] });
    await b.type('segment main\n'.repeat(4000));
    await b.expect('a very long text has no colours', await b.run(() => [by('colours').children.length, by('text').classList.contains('painted')]), [0, false]);
    await b.type(' '.repeat(300000));
    await b.expect('a text that is too long is refused', await b.text('refused'), (said) => said.includes('input too long'));
    await b.expect('and one that is longer than the memory', await b.run(() => page.machine.rows({ kind: 'tape', text: ' '.repeat(2e7), small: false }).ending), 'too long');
    await b.type(`${'; x\n'.repeat(80)}Z F`);
    await b.ask('by("text").scrollTop = 300; 0');
    await b.ask('new Promise((done) => requestAnimationFrame(() => requestAnimationFrame(done)))');
    await b.expect('the numbers and the colours follow the text', await b.ask('[by("lines").scrollTop, by("colours").scrollTop]'), [300, 300]);
    await b.ask('editor.isOwn = false; 0');
    await b.choose('squares.tape1');
    await b.click('isTape');
    await b.expect('a text for another loader has nothing to be marked', await b.ask('[by("refusal").hidden, by("mark").hidden, by("switch").hidden]'),
        [false, true, false]);
    await b.choose('letter.tape');
}

module.exports = { atFirst, atEnds, onStage, boxesBelow, inText };
