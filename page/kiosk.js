'use strict';
// A museum's screen: the page's address with #kiosk=60,quiet after it. The stories are shown one after the other. If
// the page was touched, and then left alone for that many seconds, everything is reset to the beginning; before that it
// counts down, and a touch stops the count.
const BETWEEN = 12; // seconds from the end of a story to the next one
const COUNTED = 10; // seconds that are counted down, or half of a short wait
const LEAST_WAIT = 10, MOST_WAIT = 3600, USUAL_WAIT = 90; // seconds

// What the address asks for: 60,quiet,story=disc,pause=20,stage are the seconds, no bell, one or more stories instead of
// all, the seconds between two of them, and the machine alone, with nothing below it.
function kioskAsked(asked, names) {
    const words = (asked || '').split(',').map((word) => word.trim());
    const valuesOf = (name) => words.filter((word) => word.startsWith(`${name}=`)).map((word) => word.slice(name.length + 1));
    const within = (value, least, usual) => (/^\d+$/.test(value) ? Math.max(least, Math.min(Number(value), MOST_WAIT)) : usual);
    const stories = valuesOf('story').filter((name) => names.includes(name));
    return {
        seconds: within(words.find((word) => /^\d+$/.test(word)), LEAST_WAIT, USUAL_WAIT),
        between: within(valuesOf('pause')[0], 1, BETWEEN),
        stories: stories.length ? stories : names,
        isQuiet: words.includes('quiet'),
        isStage: words.includes('stage'),
    };
}

class Kiosk {
    constructor(asked) {
        Object.assign(this, kioskAsked(asked, ROTATION));
        this.isTouched = false;
        this.since = page.clock();
        if (this.isQuiet) {
            by('sound').checked = false;
        }
        this.language = page.words.name;
        this.boxes = [...document.querySelectorAll('input, select, textarea, details')].map((box) => (
            { box, value: box.value, checked: box.checked, open: box.open }));
    }

    touch() {
        this.isTouched = true;
        this.since = page.clock();
        this.count(undefined);
    }

    // Resets everything: each control, box, scroll and text.
    reset() {
        halt();
        clearTimeout(editor.timer);
        Object.assign(editor, { isOwn: false, waiting: undefined, timer: undefined });
        forget();
        tellNews();
        [page.machine.orders, page.machine.meanings].forEach((known) => known.clear()); // it tells them again
        speakIn(this.language);
        this.boxes.forEach(({ box, value, checked, open }) => {
            if (box.tagName === 'DETAILS') {
                box.open = open;
            } else if (box.type === 'checkbox' || box.type === 'radio') {
                box.checked = checked;
            } else {
                box.value = value;
            }
            box.style.width = box.style.height = '';
        });
        tanks();
        drawPace();
        follow(true);
        afterPrint();
        by('ask').hidden = by('linked').hidden = true;
        sayAt('shared');
        drawLesson();
        begin();
        this.isTouched = false;
        this.since = page.clock();
        this.count(undefined);
        if (document.activeElement) {
            document.activeElement.blur();
        }
        [document.documentElement, ...document.querySelectorAll('*')].forEach((node) => {
            if (node.scrollTop || node.scrollLeft) {
                node.scrollTop = node.scrollLeft = 0;
            }
        });
    }

    // Checks once a second whether it is time for something.
    look() {
        if (page.tour) {
            this.since = page.clock(); // a story ends by itself
            return;
        }
        const idle = (page.clock() - this.since) / 1000;
        const left = (this.isTouched ? this.seconds : this.between) - idle;
        if (left < 0) {
            const next = this.isTouched ? 0 : this.stories.indexOf(storyNow().name) + 1;
            this.reset();
            this.tell(next);
        } else if (this.isTouched) {
            this.count(left <= Math.min(COUNTED, this.seconds / 2) ? Math.ceil(left) : undefined);
        }
    }

    // The seconds that are left, where a visitor sees them; or nothing.
    count(left) {
        by('countdown').hidden = left === undefined;
        by('count').textContent = left ?? '';
    }

    tell(number) {
        by('stories').value = this.stories[number % this.stories.length];
        loadStory();
        tell();
    }
}

function beginKiosk(asked) {
    document.documentElement.classList.add('kiosk');
    const kiosk = (page.kiosk = new Kiosk(asked));
    document.documentElement.classList.toggle('alone', kiosk.isStage);
    feel(() => kiosk.touch());
    guard();
    setInterval(() => kiosk.look(), 1000);
    draw();
    kiosk.tell(0);
}

if (typeof module !== 'undefined') {
    module.exports = { kioskAsked };
}
