'use strict';
// The compiled machine and the program, side by side, and what was compared of them.
const fs = require('fs');
const path = require('path');
const { spawnSync } = require('child_process');
const { Machine } = require('./machine.js');

const COMMANDS = { source: 'run', tape: 'tape', tape1: 'tape1' }; // which run a text of each kind

const storeOf = (small) => ['--store', small ? '512' : '1024'];

// The program, which is asked the same once for all modules.
class Program {
    constructor(edsac) {
        Object.assign(this, { edsac, answers: new Map() });
    }

    ask(words, input) {
        const asked = JSON.stringify([words, input]);
        if (!this.answers.has(asked)) {
            const ran = spawnSync(this.edsac, words, { input, maxBuffer: 1 << 26 });
            const [out, note] = [ran.stdout, ran.stderr].map((bytes) => bytes.toString('utf8'));
            this.answers.set(asked, { status: ran.status, out, note });
        }
        return this.answers.get(asked);
    }
}

class Beside {
    constructor(file, program) {
        this.name = path.basename(file);
        this.machine = new Machine(new WebAssembly.Module(fs.readFileSync(file)));
        this.seen = new Map(); // how many runs had each ending
        this.count = { pictures: 0, gone: 0, small: 0, printed: 0, figures: 0, landed: 0, lines: 0, tried: 0, wrong: 0 };
        this.program = (words, input) => program.ask(words, input);
        this.same = (what, got, wanted) => {
            this.count.tried++;
            if (got !== wanted) {
                this.count.wrong++;
                const [is, due] = [got, wanted].map((one) => `${JSON.stringify(one)}`.slice(0, 300));
                console.log(`WRONG ${this.name}, ${what}: ${is} and not ${due}`);
            }
        };
    }
}

module.exports = { Beside, Program, COMMANDS, storeOf };
