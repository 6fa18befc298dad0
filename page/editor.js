'use strict';
// The box for texts: it colours labels, orders and comments, marks a faulty line when typing rests, and asks before own work
// is replaced.
const REST = 500; // milliseconds without a key after which a text is read
const PAINTED = 40000; // characters: a longer text has no colours
const DIGITS_OF_LINE = 4; // of the number beside a line
const editor = {
    isOwn: false, // whether the text was typed here
    waiting: undefined, // what to do once own work may be replaced
    timer: undefined,
};

const KIND_BOXES = { tape: 'isTape', tape1: 'isTape1', source: 'isSource' };

function textNow() {
    const kind = Object.keys(KIND_BOXES).find((one) => by(KIND_BOXES[one]).checked);
    return { text: by('text').value, kind, small: kind !== 'tape1' && by('small').checked };
}

// The parts of a text, each with its class: what is matched has the class of its group.
function matchedParts(text, form) {
    const parts = [];
    let at = 0;
    for (const found of text.matchAll(form)) {
        parts.push(['', text.slice(at, found.index)]);
        parts.push([Object.keys(found.groups).find((name) => found.groups[name] !== undefined), found[0]]);
        at = found.index + found[0].length;
    }
    return [...parts, ['', text.slice(at)]];
}

// The parts of a line of a source: a label, an order or a word that begins a statement, strings and the comment.
function lineParts(line) {
    const [, label, rest] = line.match(/^([ \t]*(?:[A-Za-z_]\w*:[ \t]*)?)(.*)$/);
    const begins = rest.match(/^(?:(segment|enter|use|data|version|word|long|text)\b|[A-Z#*.@!&](?= ))/);
    const head = begins ? begins[0] : '';
    return [['label', label], [begins && begins[1] ? 'word' : 'order', head],
        ...matchedParts(rest.slice(head.length), /(?<comment>;.*)|(?<string>"[^"]*")/g), ['', '\n']];
}

// The parts of a text with the class of each.
function partsOf(text, kind) {
    const parts = kind === 'source' ? text.split('\n').flatMap(lineParts).slice(0, -1)
        : matchedParts(text, /(?<comment>\[[^\]]*\]?)|(?<order>[A-Z](?=\d*[A-Z@#!&]))/g);
    return parts.filter(([, part]) => part);
}

function paint() {
    const { text, kind } = textNow();
    const isLong = text.length > PAINTED;
    by('text').classList.toggle('painted', !isLong);
    const fault = page.refusal;
    let at = 0;
    const spans = isLong ? [] : partsOf(text, kind).map(([name, part]) => {
        const span = document.createElement('span');
        span.textContent = part;
        const isFaulty = fault && at < Math.max(fault.to, fault.from + 1) && at + part.length > fault.from;
        span.className = `${name}${isFaulty ? ' faulty' : ''}`.trim();
        at += part.length;
        return span;
    });
    by('colours').replaceChildren(...spans, document.createTextNode('\n'));
    by('lines').textContent = text.split('\n').map((_, line) => String(line + 1).padStart(DIGITS_OF_LINE)).join('\n');
    drawMarks();
    follows();
}

// The colours, the numbers and the marks are where the text is.
function follows() {
    const { scrollTop, scrollLeft } = by('text');
    by('colours').scrollTop = by('lines').scrollTop = scrollTop;
    by('colours').scrollLeft = scrollLeft;
    Object.assign(marked, { top: scrollTop, left: scrollLeft });
    placeMarks();
}

// Does what replaces the text. If the text was typed here, it asks first.
function replacing(does) {
    if (!editor.isOwn) {
        does();
        return;
    }
    editor.waiting = does;
    by('ask').hidden = false;
    by('ask').scrollIntoView({ block: 'nearest' });
    by('keep').focus();
}

function answerAsk(isYes) {
    const does = editor.waiting;
    editor.waiting = undefined;
    by('ask').hidden = true;
    if (!isYes) {
        by('examples').value = '';
        by('stories').value = 'own';
    } else if (does) {
        remember({ ...textNow(), isOwn: true });
        editor.isOwn = false;
        does();
    }
}

// Puts a text into the box, and begins with it.
function put(program) {
    editor.timer = clearTimeout(editor.timer); // nobody is typing any more
    sayAt('checked');
    const now = textNow();
    if (now.text !== '' && now.text !== program.text) {
        remember({ ...now, isOwn: editor.isOwn });
        drawFormer();
    }
    by('text').value = program.text;
    by(KIND_BOXES[program.kind]).checked = true;
    if (program.small !== undefined && by('small').checked !== program.small) {
        by('small').checked = program.small;
        tanks();
    }
    editor.isOwn = false;
    begin();
}

// A key was typed: the text is read when typing rests.
function typed() {
    halt();
    editor.isOwn = true;
    by('examples').value = '';
    by('stories').value = 'own';
    page.refusal = undefined;
    sayAt('checked');
    paint();
    clearTimeout(editor.timer);
    editor.timer = setTimeout(() => { editor.timer = undefined; begin(); }, REST);
}

if (typeof module !== 'undefined') {
    module.exports = { partsOf };
}
