'use strict';
// Links: what the page's address asks for is opened, and a link is made of what is shown.
const NAMES = {
    lessons: LESSONS.map(({ number }) => number), stories: ROTATION, examples: EXAMPLES.map(({ name }) => name), speeds: SPEEDS,
};

const askedNow = () => askedOf(addressed(), NAMES);

// Says at the top of the page, whatever is seen of it, that a link is damaged; or nothing.
function tellNews(says) {
    by('news').hidden = says === undefined;
    sayAt('newsSays', says);
}

// Opens what the page's address asks for; false if that is no program.
async function openAddress() {
    const asked = askedNow();
    const shared = asked.letters && await unpacked(asked.letters);
    const isDamaged = asked.letters !== undefined && shared === undefined;
    const what = asked.faults.join(', ');
    tellNews(isDamaged ? () => page.words.say('badLink') : what ? () => page.words.say('badAddress', { what }) : undefined);
    if (!shared && !asked.lesson && !asked.story && !asked.example) {
        openBeside(asked);
        return false;
    }
    replacing(() => {
        openProgram(asked, shared);
        openBeside(asked);
    });
    return true;
}

// The program that a link asks for. That of a lesson is replaced by one that the link names too.
function openProgram({ lesson, story, example }, shared) {
    if (lesson) {
        by('lesson').value = lesson;
        by('lesson').onchange();
        chosenLesson();
    }
    if (shared) {
        by('examples').value = '';
        by('stories').value = 'own';
        by('nameLabel').hidden = true;
        put(shared);
        if (isAlive() && shared.orders > 0) {
            look(shared.orders);
        }
    } else if (example) {
        chooseExample(EXAMPLES.findIndex(({ name }) => name === example));
    } else if (story) {
        by('stories').value = story;
        loadStory();
    }
}

// What a link asks for beside a program: the note, the speed and the view.
function openBeside({ note, speed, view }) {
    by('teacher').hidden = note === '';
    by('teacherNote').textContent = note;
    if (speed) {
        by('speed').value = SPEEDS.indexOf(Number(speed));
        drawPace();
    }
    if (view) {
        (view === 'bench' && !addressed().has('kiosk') ? openBench : closeBench)();
    }
}

// The address was changed, or the browser's Back was pressed: what is in the box is kept for the way back, and what was there
// before, or what the address asks for, comes into the box.
async function changeAddress() {
    keep();
    const work = page.kiosk ? undefined : enter();
    if (work === undefined) {
        await openAddress();
    } else {
        tellNews();
        openBeside(askedNow());
        if (work.text !== by('text').value) {
            replacing(() => restore(work));
        }
    }
    keep();
}

// What is in the box, as shortly as a link can say it.
async function programAsked() {
    const now = textNow(), orders = isAlive() ? page.shown.orders : 0;
    const isBare = orders === 0 && !now.small;
    const example = EXAMPLES.find(({ text, kind }) => text === now.text && kind === now.kind);
    const story = storyNow();
    if (isBare && story && story.example && example && story.example === example.name) {
        return { story: story.name };
    }
    return isBare && example ? { example: example.name } : { p: await packed({ ...now, orders }) };
}

// The link to what is shown, with what is chosen beside it.
async function drawLink() {
    const asked = await programAsked();
    const chosen = (id, value) => (by(id).checked && !by(id).disabled ? value : undefined);
    Object.assign(asked, {
        lesson: chosen('linkLesson', by('lesson').value), speed: chosen('linkSpeed', String(speedNow())), view: chosen('linkView', 'bench'),
        note: noteOf(by('linkNote').value),
    });
    const base = linkBase(location.href, document.querySelector('meta[name=edsac-base]').content);
    by('linkText').value = linkOf(base || location.href.split('#')[0], asked);
    sayAt('linkAlone', base === undefined ? () => page.words.say('linkAlone') : undefined);
    sayAt('shared');
}

async function makeLink() {
    by('linkLesson').disabled = by('lesson').value === '0';
    by('linkView').disabled = !isBench();
    by('linked').hidden = false;
    await drawLink();
    await copyLink();
}

async function copyLink() {
    by('linkText').select();
    try {
        await navigator.clipboard.writeText(by('linkText').value);
        sayAt('shared', () => page.words.say('copied'));
    } catch (fault) {
        sayAt('shared'); // the visitor copies it by hand
    }
}

function listenToLinks() {
    by('link').onclick = makeLink;
    by('copyLink').onclick = copyLink;
    by('newsClose').onclick = () => tellNews();
    by('linkNote').maxLength = NOTE_LENGTH;
    ['linkLesson', 'linkSpeed', 'linkView', 'linkNote'].forEach((id) => { by(id).oninput = drawLink; });
    window.onhashchange = changeAddress;
}
