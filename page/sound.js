'use strict';
// The sounds: the bell of a stop, and softly the reader and the teleprinter at work. A browser lets a page sound only once
// somebody has touched it.
const RARELY = 60; // milliseconds from one clatter to the next, however fast the machine works
const CLATTER = { // how a row and a letter sound: their pitch, how loud they are, how long they last in seconds
    reader: { pitch: 2600, loud: 0.05, long: 0.02 },
    printer: { pitch: 900, loud: 0.12, long: 0.05 },
};
const sound = { context: undefined, noise: undefined, last: -RARELY };

const maySound = () => by('sound').checked && page.touched && !document.hidden;

// The browser's sounds, if it has any.
function soundNow() {
    const Audio = window.AudioContext || window.webkitAudioContext;
    if (!sound.context && Audio) {
        sound.context = new Audio();
    }
    return sound.context;
}

function ring() {
    const audio = soundNow();
    if (!audio) {
        return;
    }
    for (const [pitch, loud] of [[880, 0.25], [2217, 0.12], [3520, 0.05]]) {
        const tone = audio.createOscillator(), volume = audio.createGain();
        tone.frequency.value = pitch;
        volume.gain.setValueAtTime(loud, audio.currentTime);
        volume.gain.exponentialRampToValueAtTime(0.0005, audio.currentTime + 1.4);
        tone.connect(volume).connect(audio.destination);
        tone.start();
        tone.stop(audio.currentTime + 1.5);
    }
}

// What clatters from one picture to the next: the teleprinter if something was printed, or the reader if a row was read.
const clatterOf = (before, after) => (after.printed > before.printed ? 'printer' : after.rowsLeft < before.rowsLeft ? 'reader' : undefined);

// A short noise about a pitch.
function clatter(name) {
    const now = performance.now(), audio = name && now - sound.last >= RARELY ? soundNow() : undefined;
    if (!audio) {
        return;
    }
    sound.last = now;
    const { pitch, loud, long } = CLATTER[name];
    const source = audio.createBufferSource(), band = audio.createBiquadFilter(), volume = audio.createGain();
    source.buffer = sound.noise = sound.noise || noiseOf(audio);
    band.type = 'bandpass';
    band.frequency.value = pitch;
    volume.gain.setValueAtTime(loud, audio.currentTime);
    volume.gain.exponentialRampToValueAtTime(0.0005, audio.currentTime + long);
    source.connect(band).connect(volume).connect(audio.destination);
    source.start();
    source.stop(audio.currentTime + long);
}

// A tenth of a second of noise.
function noiseOf(audio) {
    const buffer = audio.createBuffer(1, Math.round(audio.sampleRate / 10), audio.sampleRate);
    buffer.getChannelData(0).forEach((_, at, samples) => { samples[at] = 2 * Math.random() - 1; });
    return buffer;
}

if (typeof module !== 'undefined') {
    module.exports = { clatterOf };
}
