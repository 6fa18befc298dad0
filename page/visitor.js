'use strict';
// A browser in the hands of a visitor: the mouse, a finger and the keys, where the page has its parts.
const { Browser, CONTROL } = require('./browser.js');
const { middleOf, hearClick } = require('./middle.js');

const KEY_CODES = { Shift: [16, undefined], Enter: [13, '\r'], Tab: [9, undefined], ArrowRight: [39, undefined], ArrowLeft: [37, undefined],
    ArrowDown: [40, undefined], ArrowUp: [38, undefined], End: [35, undefined], Backspace: [8, undefined] };

// A browser in the hands of somebody who knows the page.
class Visitor extends Browser {
    // Presses a part of the page as a hand does, with the mouse or with a finger, where the part is on the screen.
    async press(selector, kind = 'mouse') {
        const at = await this.run(middleOf, selector);
        await this.expect(`${selector} can be pressed`, at && at.over, '');
        if (at && at.over === '') {
            await this.point(at.x, at.y, kind);
        }
    }

    // A press at a point of the window.
    async point(x, y, kind, clickCount = 1) {
        if (kind === 'touch') {
            await this.run(hearClick);
            await this.send('Input.dispatchTouchEvent', { type: 'touchStart', touchPoints: [{ x, y }] });
            await this.send('Input.dispatchTouchEvent', { type: 'touchEnd', touchPoints: [] });
            await this.ask('window.clicked');
            return;
        }
        for (const type of ['mousePressed', 'mouseReleased']) {
            await this.send('Input.dispatchMouseEvent', { type, x, y, button: 'left', clickCount });
        }
    }

    async click(id, times = 1) {
        for (let k = 0; k < times; k++) {
            await this.press(`#${id}`);
        }
    }

    // Chooses a language by its button.
    speak(name) {
        return this.press(`#language [lang=${name}]`);
    }

    // A key: a sign, or one that has a name. With others held down it types nothing.
    async key(name, modifiers = 0) {
        const [code, text] = KEY_CODES[name] || [name.toUpperCase().charCodeAt(0), name];
        for (const type of ['keyDown', 'keyUp']) {
            const typed = type === 'keyDown' && !modifiers ? { text } : {};
            await this.send('Input.dispatchKeyEvent', { type, key: name, windowsVirtualKeyCode: code, modifiers, ...typed });
        }
    }

    // Writes over what stands in a box, as by typing.
    async write(selector, text, kind = 'mouse') {
        await this.press(selector, kind);
        await this.key('End', CONTROL);
        const all = { key: 'a', windowsVirtualKeyCode: 65, modifiers: CONTROL };
        await this.send('Input.dispatchKeyEvent', { type: 'rawKeyDown', commands: ['selectAll'], ...all });
        await this.send('Input.dispatchKeyEvent', { type: 'keyUp', ...all });
        if (await this.ask('document.activeElement.type === "number"')) { // where nothing can be selected by a key
            await this.key('End');
            for (let k = await this.ask('document.activeElement.value.length'); k > 0; k--) {
                await this.key('Backspace');
            }
        }
        await this.send('Input.insertText', { text });
    }

    // Chooses an example, also instead of own work.
    async choose(name) {
        await this.set('examples', await this.run((one) => String(EXAMPLES.findIndex((example) => example.name === one)), name));
        if (await this.ask('!by("ask").hidden')) {
            await this.click('replace');
        }
    }

    // How many pixels of the store have a colour of the page.
    pixels(name) {
        return this.run((colour) => {
            const canvas = by('store');
            const data = canvas.getContext('2d').getImageData(0, 0, canvas.width, canvas.height).data;
            const wanted = COLOURS[colour].match(/\w\w/g).map((part) => parseInt(part, 16));
            let count = 0;
            for (let at = 0; at < data.length; at += 4) {
                count += wanted.every((part, k) => Math.abs(data[at + k] - part) < 3);
            }
            return count;
        }, name);
    }
}

module.exports = { Visitor };
