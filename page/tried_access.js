'use strict';
// What is said to those who can't see the page, both of its schemes, its languages, a hand that presses twice, and what is
// seen where the page can't run.
const fs = require('fs');
const path = require('path');
const crypto = require('crypto');
const { pause } = require('./browser.js');
const { seenBare } = require('./bare.js');
const rules = require('./rules.js');
const { hasten } = require('./hasten.js');

// Opens, or closes, everything that can be open.
function openAll(isOpen) {
    by('lesson').value = isOpen ? '4' : '0';
    drawLesson();
    document.querySelectorAll('details').forEach((box) => { box.open = isOpen; });
    ['linked', 'ask', 'invite', 'skip', 'countdown', 'news', 'teacher', 'former'].forEach((id) => { by(id).hidden = !isOpen; });
    by('teacherNote').textContent = isOpen ? 'abc' : '';
}

const SCHEMES = [
    [{ name: 'prefers-color-scheme', value: 'light' }], [{ name: 'prefers-color-scheme', value: 'dark' }],
    [{ name: 'forced-colors', value: 'active' }, { name: 'prefers-color-scheme', value: 'light' }],
    [{ name: 'forced-colors', value: 'active' }, { name: 'prefers-color-scheme', value: 'dark' }],
];

const STAGES = { 'at a stop': 'by("invite").hidden = true; look(193)', 'in the loader': 'look(48)', 'a word that is open': 'openWord(66)' };

// The rules of texts and borders in each scheme, at a stop, while a story is told, and with a word that is open.
async function schemes(b) {
    await b.size(1280, 720);
    await b.choose('letter.tape');
    await b.run(rules.install);
    for (const features of SCHEMES) {
        await b.send('Emulation.setEmulatedMedia', { features });
        const name = features.map((one) => `${one.name} ${one.value}`).join(', ');
        await b.run(openAll, true);
        for (const [what, state] of Object.entries(STAGES)) {
            await b.ask(`${state}; 0`);
            await b.expect(`${name}, ${what}: contrast`, await b.run(rules.EACH['contrast of 4.5 and more']), []);
            await b.expect(`${name}, ${what}: borders`, await b.run(rules.EACH['borders of 3 and more']), []);
        }
        await b.ask('closeWord(); look(192); 0');
        const lamps = `(() => { const lamp = (name) => document.querySelector(\`#lens .lamps i\${name}\`);
            const colours = [lamp('.on'), lamp(':not(.on)')].map((node) => numbers(getComputedStyle(node).backgroundColor));
            return [ratio(...colours), ratio(colours[0], behind(lamp('.on').parentElement))]; })()`;
        await b.expect(`${name}: lamps that are lit`, await b.ask(lamps), (all) => all.every((one) => one >= 3));
        await b.ask(`(${openAll})(false); scrollTo(0, 0); 0`);
        await b.shot(`scheme${SCHEMES.indexOf(features)}.png`);
    }
    await b.send('Emulation.setEmulatedMedia', { features: [] });
    await b.unsize();
}

// What is heard of the page, in its order: the role and the name of each part, with those of the parts in it.
async function treeOf(b) {
    const { nodes } = await b.send('Accessibility.getFullAXTree');
    const byId = new Map(nodes.map((node) => [node.nodeId, node]));
    const partOf = ({ role, name, properties, childIds }) => {
        const parts = (childIds || []).filter((id) => byId.has(id)).flatMap((id) => partOf(byId.get(id)));
        const live = (properties || []).find((one) => one.name === 'live')?.value.value;
        return [{ role: role.value, name: name ? name.value : '', live, parts }, ...parts];
    };
    return partOf(nodes[0]);
}

// The lens as a table, with its heads, and what a run prints and how it ends, as they are heard.
async function heard(b) {
    await b.choose('name.tape');
    await b.set('at', '424');
    const tree = await treeOf(b);
    const lens = tree.find(({ role, name }) => role === 'table' && name === 'The store, place by place').parts;
    const namesOf = (role) => lens.filter((one) => one.role === role).map(({ name }) => name);
    await b.expect('the lens is a table with heads', namesOf('columnheader'), ['place', 'order', 'what it does or is']);
    await b.expect('a row is headed by its place, with what its marks say', namesOf('rowheader'),
        (all) => all.includes('67, just obeyed') && all.includes('68, comes next'));
    await b.expect('and has its order and what that does', namesOf('cell'), (all) => all.includes('ZF') && all.includes('stop'));
    await b.click('start');
    await b.set('speed', '5');
    await b.click('run');
    await b.until('page.running === undefined');
    const said = (await treeOf(b)).filter(({ role }) => role === 'status');
    await b.expect('what is said is a live part of the page', said.every(({ live }) => live === 'polite'), true);
    await b.expect('what a run printed is said, and how it ended', await b.run(() => [by('spoken').getAttribute('role'), by('spoken').textContent]),
        ['status', `The teleprinter has printed: EDSAC. ${await b.text('ending')}`]);
    await b.expect('which is that it stopped', await b.text('ending'), (said) => said.startsWith('The bell rings: the machine has stopped.'));
    await b.click('back');
    await b.click('step');
    await b.expect('a step to the stop says so too', await b.text('spoken'), (said) => said.startsWith('The bell rings: the machine has stopped.'));
    await b.choose('endless.tape');
    await b.click('run');
    await pause(600);
    await b.click('run');
    await b.expect('a run that was ended printed nothing', await b.text('spoken'),
        (said) => said.startsWith('The teleprinter has printed nothing. This program does not stop'));
    await b.choose('letter.tape');
}

// The texts of more than one word that are seen, but those of programs, lessons and the cheat sheet.
function sentences() {
    const walker = document.createTreeWalker(document.body, NodeFilter.SHOW_TEXT), found = [];
    while (walker.nextNode()) {
        const { parentElement: node, textContent } = walker.currentNode;
        const isOwn = node.closest('script, pre, .editor, #lessonText, #sheet, #examples, #lesson, #unable, #spoken, h1, code, #pm, #former');
        const isSeen = (node.closest('select') || node).checkVisibility();
        if (!isOwn && isSeen && /[a-z]{2}.* .*[a-z]{2}/i.test(textContent.trim())) {
            found.push(textContent.trim());
        }
    }
    return found;
}

// Whatever is shown, a change of the language changes every sentence of it.
async function everySentence(b) {
    const STATES = {
        'on opening': 'by("stories").value = "letter"; loadStory(); page.isNew = true; draw()',
        'a step of the loader': 'look(48); speak()',
        'in a story': 'tell()',
        'a stop': 'halt(); look(193)',
        'a refused text': 'put({ text: "T64K ?", kind: "tape" })',
        'a slip on a tape': 'put({ text: "T64K GK 02@ ZF EZPF", kind: "tape" })',
        'a program that left its orders': 'put({ text: "segment main\\nX F\\nenter main", kind: "source" }); look(10000)',
        'a text for another loader': 'put({ text: "T35S ZS", kind: "tape" })',
        'a broken link': 'put(EXAMPLES[0]); tellNews(() => page.words.say("badLink"))',
        'a lesson that is wrong': 'by("lesson").value = "3"; drawLesson(); chooseExample(3); checkLesson()',
        'a word that is open': 'look(193); openWord(66); flip(4)',
        'a kiosk that counts': 'closeWord(); by("countdown").hidden = false',
    };
    for (const [what, state] of Object.entries(STATES)) {
        await b.ask('speakIn("en"); 0');
        await b.run(openAll, what !== 'in a story');
        await b.ask(`${state}; 0`);
        const english = await b.run(sentences);
        await b.speak('de');
        const german = await b.run(sentences);
        await b.expect(`${what}: sentences that stay as they are`, english.filter((one) => german.includes(one)), []);
        await b.speak('en');
        await b.expect(`${what}: and back`, (await b.run(sentences)).sort(), english.sort());
        await b.ask('halt(); 0');
    }
    await b.ask('by("countdown").hidden = true; closeWord(); editor.isOwn = false; 0');
    await b.run(openAll, false);
    await b.choose('letter.tape');
}

// Two presses at once start a story or a run, and don't end it.
async function twice(b) {
    for (const [button, is] of [['show', 'page.tour !== undefined'], ['run', 'page.running !== undefined']]) {
        await b.choose('endless.tape');
        const at = await b.run((id) => {
            const { left, top, width, height } = by(id).getBoundingClientRect();
            return [left + width / 2, top + height / 2];
        }, button);
        await Promise.all([1, 2].flatMap((clickCount) => ['mousePressed', 'mouseReleased'].map((type) => ( // also on a busy computer at once
            b.send('Input.dispatchMouseEvent', { type, x: at[0], y: at[1], button: 'left', clickCount })))));
        await b.expect(`a double click on ${button}`, await b.ask(is), true);
        await pause(600);
        await b.click(button);
        await b.expect(`a later click on ${button}`, await b.ask(is), false);
        await b.ask('document.activeElement.blur(); 0');
        const key = { key: button === 'show' ? 'w' : 'r', windowsVirtualKeyCode: button === 'show' ? 87 : 82 };
        await pause(600);
        for (let k = 0; k < 6; k++) { // a key that is held
            await b.send('Input.dispatchKeyEvent', { type: 'keyDown', text: key.key, autoRepeat: k > 0, ...key });
            await pause(150);
        }
        await b.send('Input.dispatchKeyEvent', { type: 'keyUp', ...key });
        await b.expect(`a held key for ${button}`, await b.ask(is), true);
        await b.ask('halt(); 0');
    }
    await b.choose('letter.tape');
}

// Where the page can't run, there is a sentence in both languages and nothing else.
async function unable(b) {
    const was = [b.session, b.page];
    const text = fs.readFileSync(b.page.slice('file://'.length), 'utf8');
    const sum = (script) => crypto.createHash('sha256').update(script).digest('base64');
    const [script] = text.match(/(?<=<script>)[\s\S]*?(?=<\/script>)/);
    const old = `${script}\nlet 1 = 2;`; // what no browser can read, as a new text for an old one
    const cases = {
        'a script that the policy refuses': text.replace('<script>', '<script>\n'),
        'a script that the browser can not read': text.replace(script, () => old).replace(sum(script), sum(old)),
        'a policy without WebAssembly': text.replace(" 'wasm-unsafe-eval'", ''),
        'no WebAssembly': text,
        'no JavaScript': text,
    };
    for (const [what, page] of Object.entries(cases)) {
        const file = path.join(b.folder, 'unable.html');
        fs.writeFileSync(file, page);
        await b.openBare(`file://${path.resolve(file)}`, { isScripted: what !== 'no JavaScript', hasWasm: what !== 'no WebAssembly' });
        await pause(2500);
        const [sentences, others] = await seenBare(b, ['#unable p', 'main']);
        await b.expect(`${what}: a sentence in both languages`, sentences, [true, true]);
        await b.expect(`${what}: and nothing else`, others, [false]);
        fs.rmSync(file);
    }
    [b.session, b.page] = was;
    b.said = b.said.filter((said) => !/unable\.html|SyntaxError/.test(said));
    await b.expect('where it runs, they are not seen, each in its language',
        await b.ask('[by("unable").getClientRects().length, ...[...by("unable").children].map(({ lang }) => lang)]'), [0, 'en', 'de']);
    await b.expect('the head of the page', await b.run(() => [
        document.querySelector('meta[name=description]').content.length > 60,
        document.querySelector('meta[name=color-scheme]').content,
        document.querySelector('meta[name=version]').content === VERSION,
        document.querySelector('link[rel=icon]').href.startsWith('data:image/svg+xml'),
    ]), [true, 'light dark', true, true]);
}

// A story that is heard in one language and then in the other says in each sentence what it would have said in that one.
async function storyTongues(b) {
    await b.run(() => {
        const { say } = Tour.prototype;
        page.formerSay = say;
        Tour.prototype.say = function hears(key, values) {
            const was = by('story').textContent, { words } = page;
            say.call(this, key, values);
            const said = by('story').textContent;
            if (was !== said && words.name === 'en') {
                speakIn('de');
                page.heardIn.push(by('story').textContent);
                page.words = words; // the story goes on in English; nobody looks at the rest of the page
                by('story').textContent = said;
            } else if (was !== said) {
                page.heardIn.push(said);
            }
        };
    });
    await b.run(hasten, 0.002);
    for (const name of await b.ask('ROTATION')) {
        const heard = [];
        for (const language of ['en', 'de']) {
            await b.speak(language);
            await b.run((story) => { page.heardIn = []; by('stories').value = story; loadStory(); }, name);
            await b.click('show');
            await b.until('page.tour === undefined && !by("invite").hidden');
            heard.push(await b.ask('page.heardIn'));
        }
        await b.expect(`the story ${name} changes its language in each sentence`, heard[0].filter((one, k) => one !== heard[1][k]), []);
        await b.expect(`the story ${name} has as many in both`, heard[0].length, (all) => all === heard[1].length && all > 10);
    }
    await b.ask('Tour.prototype.say = page.formerSay; halt(); 0');
    await b.run(hasten, 1);
    await b.speak('en');
    await b.choose('letter.tape');
}

module.exports = { schemes, heard, everySentence, storyTongues, twice, unable };
