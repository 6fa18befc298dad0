'use strict';
// What the page's address asks for, after its #: a program, a lesson, a story, an example, a teacher's note, the speed and
// the view; and the address of a link.
const NOTE_LENGTH = 300; // letters of a note
const ASKED_LENGTH = 40; // letters of what is quoted from a damaged address
// The names of an address, in the order of a link: if its end is cut off, the program is missed.
const KNOWN = ['kiosk', 'narrow', 'lang', 'lesson', 'story', 'example', 'speed', 'view', 'note', 'p'];
const VIEWS = ['exhibit', 'bench'];

// A note as it is shown: plain letters, and no more of them than a note may have.
const noteOf = (text) => [...text.replace(/[\u0000-\u0009\u000b-\u001f\u007f-\u009f\u202a-\u202e\u2066-\u2069]/g, ' ').trim()]
    .slice(0, NOTE_LENGTH).join('');

// What an address asks for, as far as it is there, and what it asks for that nobody has.
function askedOf(address, { lessons, stories, examples, speeds }) {
    const faults = [...new Set(address.keys())].filter((name) => !KNOWN.includes(name));
    const oneOf = (name, values) => {
        const value = address.get(name);
        if (value !== null && !values.includes(value)) {
            faults.push(`${name}=${value}`);
        }
        return values.includes(value) ? value : undefined;
    };
    return {
        letters: address.get('p') || undefined,
        lesson: oneOf('lesson', lessons.map(String)),
        story: oneOf('story', stories),
        example: oneOf('example', examples),
        speed: oneOf('speed', speeds.map(String)),
        view: oneOf('view', VIEWS),
        note: noteOf(address.get('note') || ''),
        faults: faults.map((fault) => [...fault].slice(0, ASKED_LENGTH).join('')),
    };
}

// The address on which links are built: that of the page, or if it was opened as a file the one that its first lines set.
// Undefined if there is none.
function linkBase(address, base) {
    if (!address.startsWith('file:')) {
        return address.split('#')[0];
    }
    return /^https?:\/\/[^\s#]+$/.test(base) ? base : undefined;
}

// A link: a base, and what is asked for in the order of the names above.
function linkOf(base, asked) {
    const parts = KNOWN.filter((name) => asked[name] !== undefined && asked[name] !== '').map((name) => [name, asked[name]]);
    return `${base}#${new URLSearchParams(parts)}`;
}

if (typeof module !== 'undefined') {
    module.exports = { askedOf, noteOf, linkBase, linkOf, NOTE_LENGTH };
}
