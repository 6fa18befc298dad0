'use strict';
// The slips of beginners: which one a refused text shows, and which one a tape shows that the machine takes for another.
const QUOTES = /[“”„‟‘’‚‛«»‹›″]/;
const WIDE_BLANKS = /[\u00a0\u2000-\u200a\u202f\u205f\u3000]/;
const UNSEEN = /[\u00ad\u200b-\u200f\u2060\ufeff]/;
const DASHES = /[\u2010-\u2015\u2212]/;
const STRANGE = /[^\t\x20-\x7e]/u;
const ORDER = /^[A-Z#*.@!&]\s*([a-z_]\w*|\d+)?(\s*[+-]\s*\w+)?\s*[FD]$/;

// The sign that begins at a byte of a text. What a reader takes for one sign, such as an emoji, stays whole.
function signAt(text, byte) {
    const from = new TextDecoder().decode(new TextEncoder().encode(text).subarray(0, byte)).length;
    return { from, to: from + firstSign(text.slice(from, from + 64)).length };
}

function firstSign(text) {
    if (typeof Intl !== 'undefined' && Intl.Segmenter) {
        const [first] = new Intl.Segmenter(undefined, { granularity: 'grapheme' }).segment(text);
        return first ? first.segment : '';
    }
    return text === '' ? '\0' : String.fromCodePoint(text.codePointAt(0));
}

// A line of a text, by its number from 1 on.
function lineAt(text, number) {
    const lines = text.split('\n');
    const from = Math.min(lines.slice(0, number - 1).join('\n').length + (number > 1 ? 1 : 0), text.length);
    return { from, to: Math.min(from + (lines[number - 1] || '').length, text.length) };
}

// The part of a text that a refusal is about: the sign at a byte; or a line, or in it the sign that no program may have.
function partAt(text, { unit, number, cause }) {
    if (unit === 'byte') {
        return signAt(text, number);
    }
    const line = lineAt(text, number);
    const at = cause === 'S1' ? text.slice(line.from, line.to).search(STRANGE) : -1;
    const from = line.from + Math.max(at, 0);
    return at < 0 ? line : { from, to: from + firstSign(text.slice(from, line.to)).length };
}

// What is wrong with a sign that looks like another one, that nobody sees, or that belongs to the other notation.
function hintForSign(sign, cause) {
    const kinds = [['noBreak', WIDE_BLANKS], ['unseen', UNSEEN], ['quote', QUOTES], ['dash', DASHES]];
    const [found] = kinds.find(([, form]) => form.test(sign)) || [];
    if (cause === 'S1') {
        return found || (STRANGE.test(sign) ? 'sign' : undefined);
    }
    return found || (sign === ';' ? 'semicolon' : /^[a-z]/.test(sign) ? 'lowerTape' : undefined);
}

// The slip in a line that is no statement.
function hintForLine(part) {
    const line = part.replace(/;.*/, '').replace(/^\s*[A-Za-z_]\w*:/, '').trim();
    const [, first, rest] = line.match(/^([a-z_]\w*)\s+(.*)$/) || [];
    if (/"[^"]* [^"]*"/.test(line)) {
        return 'blank';
    }
    if (/^(\/\/|#|\[|--)/.test(line) || /\[|\/\//.test(line)) {
        return 'comment';
    }
    if (/^0\s*[a-z_\d]/.test(line)) {
        return 'zero';
    }
    if (/^(?:[A-Z#*.@!&]|word\b|long\b).*?(?:[+-]|\s)[\dO]*O[\dO]*(?:\s|[FD]?$)/.test(line)) {
        return 'oh';
    }
    if (first && !/^(segment|enter|use|data|version|word|long|text)$/.test(first)
        && (ORDER.test(rest) || /^(word|long|text)\b/.test(rest))) {
        return 'colon';
    }
    if (/^[a-z](\s|$)/.test(line)) {
        return 'lower';
    }
    return /^[A-Z](\s+[\w+-]+)?$/.test(line) ? 'length' : undefined;
}

// The slip of a beginner that a refused part of a text shows, if it shows one.
function hintFor(cause, part) {
    const sign = ['S1', 'T1'].includes(cause) ? hintForSign(part, cause) : undefined;
    if (sign || cause === 'T1') {
        return sign;
    }
    const line = hintForLine(part);
    return line && (cause === 'S3' || line !== 'length') ? line : { S7: 'word', S9: 'segment', S16: 'enter' }[cause];
}

// The name in a hint: that of a label without its colon, or the first segment.
function nameIn(text, part) {
    const [, label] = part.match(/^\s*([a-z_]\w*)/) || [];
    const [, segment] = text.match(/^\s*segment\s+([a-z]\w*)/m) || [];
    return { label, segment: segment || 'main' };
}

// The signs of a tape's text, one for each row, each with its position in the text.
function signsOf(text) {
    const bare = text.replace(/\[[^\]]*\]/g, (comment) => ' '.repeat(comment.length));
    return [...bare.matchAll(/\S/g)].map(({ 0: sign, index }) => ({ sign, from: index, to: index + 1 }));
}

// A figure 0 that begins an item, where the loader takes it for the letter P; or a letter O within the number of an item,
// where the loader takes it for a 9.
function slipOf(text, items) {
    const signs = signsOf(text);
    for (const { first, after } of items) {
        const [begins, ...others] = signs.slice(first, after);
        const oh = others.slice(0, -1).find(({ sign }) => sign === 'O');
        const item = signs.slice(first, after).map(({ sign }) => sign).join('');
        if (begins && begins.sign === '0') {
            return { hint: 'tapeZero', item, ...begins };
        }
        if (oh) {
            return { hint: 'tapeOh', item, ...oh };
        }
    }
    return undefined;
}

if (typeof module !== 'undefined') {
    module.exports = { signAt, lineAt, partAt, hintFor, nameIn, signsOf, slipOf };
}
