'use strict';
// Each control of the machine and of its stage: its selector, what it does, the state before (made from a page at Start), what a
// visitor sees of it, and that before and after a press. The values are stated here, and not computed by the page.
//   is         for several controls with one selector, the value of the one with a number, or one for all
//   which      the numbers of those that are pressed, of several with one selector; by default all
//   again      how the state before comes back for the next of several, if that is quicker
//   at         where it is pressed, as shares of its width and height;  over: on a text in a part of the page
//   typed      what is typed into a box;  ends: the key after it, in place of Enter
//   letter     the key that presses it from anywhere
//   not        the ways by which it isn't pressed, each with its reason: it is tried that it does nothing
//   rests      half a second passes before, since a second press at once is the same press
//   screen     the only screen that has it
const ALPHABET = 'ABCDEFGHIJKLMNOPQRSTUVWXYZ';
const LANGUAGE = 'seen("programHead")', NEXT = 'next()', SHOW = 'seen("show")', RUN = 'seen("run")', TYPED = 'seen("typed")';
const OPEN_A = 'look(193); openWord(66)';
const AF = '11100000000000000'; // the digits of the word AF
const BY_NUMBER = { key: 'the button with the number of the row is for the keys' };

const AT_ENTRY = '\u25b6 O2@ in line 4 comes next: place 64.', ZF_FOUND = '\u25c6 ZF in line 5 is place 65.';

const flipped = (digit) => [...AF].map((lit, k) => (k === digit ? String(1 - lit) : lit)).join('');
const row = (control, does, from, see, was, is, more = {}) => ({ control, does, from, see, was, is, not: {}, ...more });

const HEAD = [
    row('#language [lang=de]', 'German', '', LANGUAGE, 'The program', 'Das Programm'),
    row('#language [lang=en]', 'English', 'speakIn("de")', LANGUAGE, 'Das Programm', 'The program'),
    row('#newsClose', 'closes the line at the top', 'tellNews(() => "abc")', 'seen("newsSays")', 'abc', ''),
    row('#toExhibit', 'back to the exhibit', 'openBench()', 'isSeen("stories")', false, true),
    row('#write', 'the workbench, with the text at hand', '', '[isSeen("stories"), focused()]', [true, ''], [false, 'text']),
    row('#more', 'opens the box below', '', '[isSeen("at"), focused()]', [false, ''], [true, 'SUMMARY']),
];

const MACHINE = [
    row('#start', 'Start', 'look(10)', NEXT, '11', '1', { letter: '0' }),
    row('#step', 'one order forward', 'look(10)', NEXT, '11', '12', { letter: 's' }),
    row('#back', 'one order back', 'look(10)', NEXT, '11', '10', { letter: 'b' }),
    row('#run', 'runs', '', RUN, 'Run', 'Pause', { letter: 'r' }),
    row('#run', 'ends a run', 'run()', RUN, 'Pause', 'Run', { letter: 'r', rests: true }),
    row('#run', 'starts again after a stop', 'look(193)', RUN, 'Start again', 'Pause', { letter: 'r', rests: true }),
    row('#speed', 'faster', '', 'seen("pace")', '50 a second', '650, as in 1949', { at: [0.6, 0.5] }),
    row('#store', 'shows the places that are pressed', 'look(193)', '[headed("(99.|10..)$"), value("tank")]', [false, '0'], [true, '31'],
        { at: [0.97, 0.9], not: { key: 'the list of places is for the keys' } }),
    row('#tape', 'nothing: a picture', 'look(10)', NEXT, '11', '11',
        { not: { mouse: 'a picture', key: 'a picture', touch: 'a picture' } }),
    row('#now', 'has the focus, to be scrolled', '', 'focused()', '', 'now'),
    row('#paper', 'has the focus, to be scrolled', '', 'focused()', '', 'paper'),
    row('#figures', 'how words are read', 'look(193)', 'cells(65)[2]', 'ZF', '53,248'),
];

const STORY = [
    row('#show', 'begins the story', '', SHOW, 'Show me', 'Stop this', { letter: 'w' }),
    row('#show', 'ends the story', 'tell()', SHOW, 'Stop this', 'Show me', { letter: 'w', rests: true }),
    row('#skip', 'the next part of the story', 'tell()', 'seen("story").slice(0, 22)', 'In 1949 the EDSAC was ', 'Somebody presses Start'),
    row('#stories', 'the next story', '', '[value("stories"), isSeen("name")]', ['letter', false], ['name', true]),
    row('#name', 'a name, and its story', 'choose("name")', `[${SHOW}, value("text").includes("Prints BOB,")]`, ['Show me', false],
        ['Stop this', true], { typed: 'BOB' }),
    row('#inviteNext', 'the next story', 'invite()', `[${SHOW}, value("stories")]`, ['Show me', 'letter'], ['Stop this', 'name']),
    row('#inviteWrite', 'the workbench', 'invite()', '[isSeen("stories"), focused()]', [true, ''], [false, 'text']),
    row('#inviteBack', 'one order back', 'invite()', `[${NEXT}, isSeen("inviteBack")]`, ['194', true], ['193', false]),
    row('#letters button', 'a letter of the name', 'choose("name"); typeName("")', TYPED, 'Your name', (k) => ALPHABET[k], { again: 'typeName("")' }),
    row('#letters button', 'prints its letter at once', 'look(193)', `[${SHOW}, value("text").slice(0, 9)]`, ['Show me', '[Prints t'],
        ['Stop this', '[Prints Q'], { which: [16] }),
    row('#rubOut', 'takes the last letter away', 'choose("name"); typeName("AB")', TYPED, 'AB', 'A'),
    row('#printName', 'prints the name', 'choose("name"); typeName("AB")', `[${SHOW}, ${TYPED}]`, ['Show me', 'AB'], ['Stop this', '']),
];

const WORD = [
    row('#lens', 'opens the word of its row', '', 'seen("wordHead")', '', 'Place 2: P1F', { over: ['lens', 'P1F'], not: BY_NUMBER }),
    row('#lens', 'goes to the line of its row in the workbench', 'openBench(); look(191)', 'seen("marked")', AT_ENTRY,
        `${AT_ENTRY} ${ZF_FOUND}`, { over: ['lens', 'ZF'], not: BY_NUMBER }),
    row('#lens button', 'opens the word of its place', '', 'seen("wordHead").slice(0, 8)', '', (k) => `Place ${k}:`, { which: [0, 1, 2, 3, 4, 5, 6] }),
    row('#wordLamps button', 'flips its digit', OPEN_A, 'lamps()', AF, flipped, { again: 'by("wordUndo").click()' }),
    row('#wordRun', 'tries the copy', `${OPEN_A}; flip(4)`, `[isSeen("word"), ${SHOW}]`, [true, 'Show me'], [false, 'Stop this']),
    row('#wordUndo', 'as it was', `${OPEN_A}; flip(4)`, 'lamps()', flipped(4), AF),
    row('#wordClose', 'closes the word', OPEN_A, 'isSeen("word")', true, false),
];

module.exports = { row, NEXT, SHOW, RUN, ZF_FOUND, STAGE: [...HEAD, ...MACHINE, ...STORY, ...WORD] };
