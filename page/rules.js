'use strict';
// Rules that the page keeps in a browser. Each is obeyed in the page, and its value lists what breaks it.

// What several rules use: how bright a colour is, which ground a part of the page has, and what is seen.
function install() {
    const share = (v) => (v <= 0.03928 ? v / 12.92 : ((v + 0.055) / 1.055) ** 2.4);
    const light = ([r, g, b]) => 0.2126 * share(r / 255) + 0.7152 * share(g / 255) + 0.0722 * share(b / 255) + 0.05;
    window.numbers = (colour) => colour.match(/[\d.]+/g).map(Number);
    window.ratio = (one, two) => Math.max(light(one), light(two)) / Math.min(light(one), light(two));
    window.behind = (node) => {
        for (let at = node; at; at = at.parentElement) {
            const colour = numbers(getComputedStyle(at).backgroundColor);
            if (colour.length < 4 || colour[3] > 0) {
                return colour;
            }
        }
        return [255, 255, 255];
    };
    window.seen = (selector) => [...document.querySelectorAll(selector)].filter((node) => node.getClientRects().length > 0);
    window.nameOf = (node) => node.id || node.className || node.tagName;
}

// The texts whose colour has too little contrast with their ground.
function contrasts() {
    const isText = (child) => child.nodeType === Node.TEXT_NODE && child.textContent.trim() !== '';
    const texts = seen('body *').filter((node) => !['TEXTAREA', 'OPTION'].includes(node.tagName) && [...node.childNodes].some(isText));
    return texts.filter((node) => ratio(numbers(getComputedStyle(node).color), behind(node)) < 4.5).map(nameOf);
}

// The controls whose border and ground both have too little contrast with what is beside them.
function borders() {
    const isPale = (node, part) => ratio(numbers(getComputedStyle(node)[part]), behind(node.parentElement)) < 3;
    return seen('button, select, input:not([type=checkbox]):not([type=radio]), textarea')
        .filter((node) => isPale(node, 'borderTopColor') && isPale(node, 'backgroundColor')).map(nameOf);
}

// The controls without a name, and the groups.
function names() {
    const hasLabel = (box) => box.labels && [...box.labels].some((label) => label.textContent.trim());
    return seen('button, input, select, textarea, canvas')
        .filter((box) => !box.textContent.trim() && !hasLabel(box) && !box.getAttribute('aria-label'))
        .concat(seen('[role=group]').filter((group) => !group.getAttribute('aria-label'))).map(nameOf);
}

// Headings two levels below the one before, and sections without one.
function headings() {
    const levels = seen('main h1, main h2, main h3, main h4').map((node) => Number(node.tagName[1]));
    const jumps = levels.filter((level, k) => level > (k ? levels[k - 1] : 0) + 1).map((level) => `h${level}`);
    return jumps.concat(seen('section').filter((node) => !node.querySelector('h2')).map(nameOf));
}

// Rules of the stylesheet that no part of the page uses, except those that it uses at times; and whether the browser
// understood all of them.
function styles() {
    const all = (list) => [...list].flatMap((rule) => (rule.cssRules && !(rule instanceof CSSKeyframesRule)
        ? [rule, ...all(rule.cssRules)] : [rule]));
    const atTimes = ['.rings', '.here', '.painted', '.faulty', '.comment', '.label', '.order', '.word', '.string', '.kiosk',
        '.long', '.new', '.idle', '.done', '.named', '.far', '.found', '.top', '.under', '.on', '.unstarted', '.typing', '.traveller', '#trails', '#parts',
        '[data-print', '::selection', '#printed', '#unable', '.alone', '#marks', '[data-form', ...(isBench() ? ['#stage header', '#paper span'] : ['.bench'])];
    const rules = all(document.styleSheets[0].cssRules);
    const selectors = rules.flatMap((rule) => (rule.selectorText || '').split(',')).map((one) => one.trim()).filter(Boolean);
    const bare = (one) => one.replace(/:not\(:empty\)|::before|::-webkit-[a-z-]+|:(focus-visible|focus|disabled|empty)/g, '') || '*';
    const dead = selectors.filter((one) => !atTimes.some((name) => one.includes(name)) && !document.querySelector(bare(one)));
    const keyframes = rules.filter((rule) => rule instanceof CSSKeyframesRule).reduce((sum, rule) => sum + rule.cssRules.length, 0);
    const written = document.querySelector('style').textContent.match(/\{/g).length;
    const isWhole = written === rules.length + keyframes;
    return isWhole ? dead : [...dead, `the browser understood ${rules.length + keyframes} of ${written} rules`];
}

function ids() {
    const all = [...document.querySelectorAll('[id]')].map((node) => node.id);
    return all.filter((id, k) => all.indexOf(id) !== k);
}

// Parts of the machine's screen that are outside the window, or have no height.
function outside() {
    const parts = ['button', 'select', 'input', 'section', 'canvas', 'header'].map((part) => `#stage ${part}`).join();
    const isOut = ({ left, top, right, bottom, height }) => left < -1 || top < -1 || right > innerWidth + 1
        || bottom > innerHeight + 1 || height < 8;
    const out = [...document.querySelectorAll(parts)].filter((node) => node.getClientRects().length > 0)
        .filter((node) => isOut(node.getBoundingClientRect())).map((node) => node.id || node.className);
    return out.concat(document.documentElement.scrollWidth > innerWidth ? ['the page'] : []);
}

// Parts of the machine's screen whose text is cut off: what they hold is wider or higher than they are.
function cutOff() {
    const parts = seen('.now, .now p, #stage button, #stage h1, #stage h2:not(.unseen), header p, #lens .brief, #lens .spelled,'
        + '#accNumber, #timesBox, #word, #word p, #note, #who');
    return parts.filter((node) => node.scrollWidth > node.clientWidth + 2 && getComputedStyle(node).display !== 'inline'
        || node.scrollHeight > node.clientHeight + 6 && ['.now', '#word'].some((one) => node.matches(one))).map(nameOf);
}

// The orders whose few words are wider than their room in the lens.
function cutBriefs() {
    const cell = lens.body.rows[2].cells[3], was = cell.textContent;
    const cut = [...'ASHVNTUCRLEGIOFXYZ'].filter((letter) => {
        cell.textContent = page.words.brief({ letter, location: 100, pair: 100, isLong: false, shift: 12 });
        return cell.scrollWidth > cell.clientWidth || cell.scrollHeight > cell.clientHeight + 2;
    });
    cell.textContent = was;
    return cut;
}

// Controls that a thumb misses: smaller than 24 pixels, or than 44 for the buttons of the machine.
function smallControls() {
    return seen('button, select, input').filter((node) => {
        const { width, height } = node.getBoundingClientRect();
        return width < 23.9 || height < (node.closest('.buttons') ? 43.9 : 23.9);
    }).map(nameOf);
}

// How much brighter lit dots are than dark ones, changed ones than others, and what frames and marks stand out.
function brightness() {
    const colour = (name) => COLOURS[name].match(/\w\w/g).map((part) => parseInt(part, 16));
    return [['dot', 'dark'], ['lit', 'dot'], ['lit', 'litDark'], ['litDark', 'dark'], ['counter', 'ground'], ['named', 'ground'],
        ['mark', 'ink']].map(([one, two]) => ratio(colour(one), colour(two)));
}

const EACH = {
    'contrast of 4.5 and more': contrasts,
    'borders of 3 and more': borders,
    'each control has a name': names,
    'headings are headings': headings,
    'each rule of the stylesheet is understood and used': styles,
    'each id is there once': ids,
};

module.exports = { EACH, install, outside, cutOff, cutBriefs, smallControls, brightness };
