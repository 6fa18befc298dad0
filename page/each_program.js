'use strict';
// Each control of the program, of the workbench, of the lessons and of the boxes below, as in page/each_stage.js.
const { row, NEXT, RUN, ZF_FOUND } = require('./each_stage.js');

const OWN = 'put({ text: "T64K", kind: "tape" }); editor.isOwn = true';
const FORMER = `${OWN}; replacing(() => {}); answerAsk(true)`;
const LESSON = 'choose("2", "lesson")';
const LOADED = `${LESSON}; choose("1", "examples")`;
const LINK = `${LESSON}; await makeLink()`;
const LINKED = (what) => `value("linkText").includes(${JSON.stringify(what)})`;
const O_FOUND = '\u25c6 O2@ in line 4 is place 64.';
const HINT = 'A click on a line shows its place.';
const TEXT = 'value("text").slice(0, 8)', FIRST_PLACE = 'by("look").rows[1].cells[0].textContent';
const OPENED = (box) => `by("${box}").open = true; draw(); drawListing(); drawTrace()`;

const PROGRAM = [
    row('#examples', 'the next program', '', 'value("text").slice(0, 13)', '[Prints the l', '[Prints EDSAC'),
    row('#isTape', 'reads it as a tape', 'put({ text: "T64K GK ZF EZPF", kind: "tape1" })', 'isSeen("refusal")', true, false),
    row('#isTape1', 'reads it as a tape of May 1949', '', '[checked("isTape1"), isSeen("refusal")]', [false, false], [true, true]),
    row('#isSource', 'reads it as a source', '', '[checked("isSource"), isSeen("refusal")]', [false, false], [true, true]),
    row('#small', 'half of the store', OPENED('lookBox'), '[checked("small"), by("tank").options.length]', [false, 32], [true, 16]),
    row('#replace', 'replaces own work', `${OWN}; choose("1", "examples")`, `[isSeen("ask"), ${TEXT}]`, [true, 'T64K'], [false, '[Prints ']),
    row('#keep', 'keeps own work', `${OWN}; choose("1", "examples")`, `[isSeen("ask"), ${TEXT}]`, [true, 'T64K'], [false, 'T64K']),
    row('#mark', 'marks what is refused', 'put({ text: "T64K ?", kind: "tape" })', 'selected()', '', '?'),
    row('#switch', 'reads it with the other loader', 'put({ text: "T35S ZS", kind: "tape" })', '[checked("isTape1"), isSeen("refusal")]',
        [false, true], [true, false]),
    row('#text', 'is typed into', '', '[value("examples"), value("text").includes("QQ")]', ['0', false], ['', true], { typed: 'QQ' }),
    row('#text', 'is run by Control and Enter', 'openBench()', RUN, 'Run', 'Pause', { typed: '', ends: 'Control+Enter' }),
    row('#text', 'shows the place of the line that is pressed', 'openBench()', 'seen("marked")', HINT, ZF_FOUND,
        { over: ['colours', 'Z'], not: { key: 'the caret shows it' } }),
    row('#text', 'shows the place of the line of the caret', 'openBench(); caret("GK")', 'seen("marked")', HINT, O_FOUND,
        { over: ['colours', 'G'], typed: '', ends: 'ArrowDown' }),
    row('#lines', 'shows the place of its line', 'openBench()', 'seen("marked")', HINT, ZF_FOUND,
        { over: ['lines', '5'], not: { key: 'the caret shows it' } }),
    row('#toProgram', 'the first order of the program', 'openBench()', NEXT, '1', '192'),
    row('#toPlace', 'goes on to the place', 'openBench(); by("placeWanted").value = 64', NEXT, '1', '192'),
    row('#placeWanted', 'the place, and goes on to it', 'openBench()', NEXT, '1', '192', { typed: '64' }),
    row('#new', 'a new source', 'openBench()', 'value("text").includes("segment main")', false, true),
];

const FILES = [
    row('#undo', 'lists the last texts', FORMER, 'isSeen("former")', false, true),
    row('#former button', 'brings its text back', `${FORMER}; choose("1", "examples"); showFormer(true)`, TEXT, '[Prints ', 'T64K', { which: [0] }),
    row('#save', 'saves the text', '', 'left()', [], ['program.tape']),
    row('#saveTape', 'saves the tape', '', 'left()', [], ['tape.svg']),
    row('#open', 'asks for a file', '', 'left()', [], ['file']),
    row('#file', 'is chosen by the browser', '', 'left()', [], [], { not: { mouse: 'Open presses it', key: 'Open presses it', touch: 'Open presses it' } }),
    row('#link', 'makes a link', '', `[isSeen("linked"), ${LINKED('#story=letter')}]`, [false, false], [true, true]),
    row('#punch', 'punches the tape of a source', 'put(EXAMPLES.find(({ name }) => name === "letter.edsac"))', TEXT, '; Prints', 'T56K\nGK\n'),
    row('#printTape', 'prints the tape', '', 'left()', [], ['tape']),
    row('#printWorksheet', 'prints a worksheet', '', 'left()', [], ['worksheet']),
    row('#copyLink', 'selects the link', `${LINK}; by("linkText").setSelectionRange(0, 0)`, 'by("linkText").selectionEnd > 9', false, true),
    row('#linkText', 'is copied by hand', `${LINK}; by("linkText").blur()`, 'focused()', '', 'linkText'),
    row('#linkLesson', 'the lesson in the link', LINK, LINKED('lesson=2'), false, true),
    row('#linkSpeed', 'the speed in the link', LINK, LINKED('speed=50'), false, true),
    row('#linkView', 'the view in the link', LINK, LINKED('view=bench'), false, true),
    row('#linkNote', 'a note in the link', LINK, LINKED('note=abc'), false, true, { typed: 'abc' }),
];

const LESSONS = [
    row('#lesson', 'the first lesson', '', '[isSeen("lessonText"), value("lesson")]', [false, '0'], [true, '1']),
    row('#lessonText summary', 'opens its table', LESSON, 'tables()', [false, false], (k) => [k === 0, k === 1]),
    row('#lessonText .doing button', 'loads its program', LOADED, 'chosen()', 'name.tape',
        (k) => ['stop.edsac', 'letter.edsac', 'letter.edsac', 'two.edsac'][k]),
    row('#lessonPrograms button', 'loads its program', LOADED, 'chosen()', 'name.tape', (k) => ['stop.edsac', 'letter.edsac', 'two.edsac'][k]),
    row('#check', 'checks the exercise', LESSON, 'seen("checked").slice(0, 8)', '', 'Not yet.'),
    row('#toLesson', 'the lesson from its beginning', LESSON, 'focused()', '', 'lessonsHead'),
    row('#toText', 'the text again', LESSON, 'focused()', '', 'text', { screen: 'telephone' }),
];

// Each box below, with something that is in it.
const IN_BOXES = { moreBox: 'at', lookBox: 'tank', traceBox: 'trace', pmBox: 'pmPrint', listingBox: 'listing', loaderBox: 'loaders', sheetBox: 'sheet', helpBox: 'version' };
const SUMMARIES = Object.entries(IN_BOXES).flatMap(([box, id]) => [
    row(`#${box} > summary`, 'opens its box', '', `isSeen("${id}")`, false, true),
    row(`#${box} > summary`, 'closes its box', OPENED(box), `isSeen("${id}")`, true, false),
]);

const BOXES = [
    row('#at', 'the machine after so many orders', OPENED('moreBox'), NEXT, '1', '11', { typed: '10' }),
    row('#sound', 'the bell', OPENED('moreBox'), 'checked("sound")', true, false),
    row('#keys', 'the keys of one letter', OPENED('moreBox'), 'checked("keys")', true, false),
    row('#tank', 'the next tank', OPENED('lookBox'), FIRST_PLACE, '0', '32'),
    row('#follow', 'follows the machine', `${OPENED('lookBox')}; choose("3", "tank")`, FIRST_PLACE, '96', '0'),
    row('#trace', 'has the focus, to be scrolled', `look(20); ${OPENED('traceBox')}`, 'focused()', '', 'trace'),
    row('#pm', 'has the focus, to be scrolled', `${OPENED('pmBox')}; printPostMortem()`, 'focused()', '', 'pm'),
    row('#listing', 'has the focus, to be scrolled', OPENED('listingBox'), 'focused()', '', 'listing'),
    row('#pmFirst', 'from where a post-mortem prints', OPENED('pmBox'), 'value("pmFirst")', '144', '150', { typed: '150' }),
    row('#pmCount', 'how much it prints', OPENED('pmBox'), 'value("pmCount")', '16', '3', { typed: '3' }),
    row('#pmPrint', 'prints the post-mortem', OPENED('pmBox'), 'seen("pm") === ""', true, false),
    row('#printLoaders', 'prints the loaders', OPENED('loaderBox'), 'left()', [], ['loaders']),
    row('#printSheet', 'prints the cheat sheet', OPENED('sheetBox'), 'left()', [], ['sheet']),
];

module.exports = { BENCH: [...PROGRAM, ...FILES, ...LESSONS, ...SUMMARIES, ...BOXES] };
