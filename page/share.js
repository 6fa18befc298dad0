'use strict';
// Texts that leave the page and come back: a link that holds all of it, and files. Nothing is sent: what follows the #
// of an address stays in the browser.
const LONGEST = 262144; // bytes of a text, as the machine takes them

const toLetters = (bytes) => {
    let text = '';
    for (let at = 0; at < bytes.length; at += 8192) {
        text += String.fromCharCode(...bytes.subarray(at, at + 8192));
    }
    return btoa(text).replace(/\+/g, '-').replace(/\//g, '_').replace(/=+$/, '');
};

const fromLetters = (text) => Uint8Array.from(atob(text.replace(/-/g, '+').replace(/_/g, '/')), (c) => c.charCodeAt(0));

// Bytes through a stream that packs or unpacks them, up to a length.
async function through(bytes, stream, longest) {
    const reader = new Blob([bytes]).stream().pipeThrough(stream).getReader();
    const parts = [];
    let length = 0;
    for (let part = await reader.read(); !part.done; part = await reader.read()) {
        parts.push(part.value);
        length += part.value.length;
        if (length > longest) {
            throw new RangeError('too long');
        }
    }
    return new Uint8Array(await new Blob(parts).arrayBuffer());
}

// What a link holds, as letters: packed (1) if the browser can, otherwise unchanged (0).
async function packed(shared) {
    const held = [shared.kind, shared.small ? 1 : 0, shared.orders, shared.text];
    const bytes = new TextEncoder().encode(JSON.stringify(held));
    if (typeof CompressionStream === 'undefined') {
        return `0${toLetters(bytes)}`;
    }
    return `1${toLetters(await through(bytes, new CompressionStream('deflate-raw'), Infinity))}`;
}

// What letters hold; undefined if they are not a whole link.
async function unpacked(letters) {
    try {
        let bytes = fromLetters(letters.slice(1));
        if (letters[0] === '1') {
            bytes = await through(bytes, new DecompressionStream('deflate-raw'), 2 * LONGEST);
        }
        const [kind, small, orders, text] = JSON.parse(new TextDecoder('utf-8', { fatal: true }).decode(bytes));
        const isWhole = ['tape', 'tape1', 'source'].includes(kind) && typeof text === 'string' && text.length <= LONGEST
            && Number.isInteger(orders) && orders >= 0 && (small === 0 || small === 1);
        return isWhole ? { kind, small: small === 1, orders, text } : undefined;
    } catch (fault) {
        return undefined;
    }
}

// What the address says after its #: name=value, or a name alone, with & between them.
const addressed = () => new URLSearchParams(location.hash.slice(1));

// Hands a file to the browser, which saves it.
function saveFile(name, text, type) {
    const address = URL.createObjectURL(new Blob([text], { type }));
    const link = document.createElement('a');
    link.href = address;
    link.download = name;
    link.click();
    setTimeout(() => URL.revokeObjectURL(address), 1000);
}

// A source has lines of words, labels and small letters, which no tape has outside its comments. A tape of May 1949 begins
// with T, a number and S, and a later tape doesn't.
const formOf = (text) => {
    const bare = text.replace(/\[[^\]]*\]/g, '').replace(/;.*/g, '');
    return /^\s*(segment|enter|version)\b/m.test(text) || /[a-z_:"]/.test(bare) ? 'source' : /^\s*T\s*(\d\s*)+S/.test(bare) ? 'tape1' : 'tape';
};

// The kind of a file: by its name, or else by its form.
const kindOf = (name, text) => {
    const ending = (name.match(/\.(edsac|tape1|tape)$/i) || ['', ''])[1].toLowerCase();
    return { edsac: 'source', tape: 'tape', tape1: 'tape1' }[ending] || formOf(text);
};

if (typeof module !== 'undefined') {
    module.exports = { packed, unpacked, formOf, kindOf, LONGEST };
}
