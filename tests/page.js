// Types into the page in Chromium, by its DevTools protocol, and compares what the page shows. It
// also loads the package's file for browsers, even where a policy forbids compiling. The picture has
// to have the text that the page shows, or with `draw` it is taken anew.
//
//     node tests/page.js PAGE PACKAGE PROFILE PICTURE [draw]
'use strict';
const { spawn } = require('child_process');
const fs = require('fs');
const http = require('http');
const path = require('path');

const [page, package_, profile, picture, draw] = process.argv.slice(2);

// What the picture shows. No error in it names a dialect's own rule.
const SHOWN = {
    range: '1.2.3', other: '^1.2.4', versions: '1.2.3\n1.2.4\n1.3.0-rc.1\nv1.2.3\n1.2.03', preReleases: 'by-dialect', dialect: 'npm',
};

// Chromium with two pipes, one for requests and one for responses.
const chromium = spawn('chromium', [
    '--headless', '--no-sandbox', '--disable-gpu', '--hide-scrollbars', '--disable-background-networking',
    '--remote-debugging-pipe', `--user-data-dir=${profile}`,
], { stdio: ['ignore', 'ignore', 'ignore', 'pipe', 'pipe'] });

const waiting = new Map();
let received = '';
let last = 0;

chromium.stdio[4].on('data', (data) => {
    received += data;
    const messages = received.split('\0');
    received = messages.pop();
    for (const message of messages.map((it) => JSON.parse(it))) {
        waiting.get(message.id)?.(message);
        waiting.delete(message.id);
    }
});

function send(method, params = {}, sessionId = undefined) {
    last += 1;
    chromium.stdio[3].write(`${JSON.stringify({ id: last, method, params, sessionId })}\0`);
    return new Promise((resolve, reject) => {
        waiting.set(last, ({ result, error }) => (error ? reject(new Error(`${method}: ${error.message}`)) : resolve(result)));
    });
}

const sleep = (milliseconds) => new Promise((resolve) => setTimeout(resolve, milliseconds));

// Waits until something is there, for ten minutes at most: this doesn't test speed.
async function until(isThere, what) {
    for (let tries = 0; tries < 6000; tries += 1) {
        if (await isThere()) return;
        await sleep(100);
    }
    throw new Error(`the page shows no ${what}`);
}

async function main() {
    const { targetId } = await send('Target.createTarget', { url: 'about:blank' });
    const { sessionId } = await send('Target.attachToTarget', { targetId, flatten: true });
    const ask = (method, params) => send(method, params, sessionId);
    const value = async (expression) => {
        const { result, exceptionDetails } = await ask('Runtime.evaluate', { expression, returnByValue: true });
        if (exceptionDetails) throw new Error(JSON.stringify(exceptionDetails));
        return result.value;
    };
    // Opens the page with a state, and waits until it has rows.
    const open = async (hash) => {
        await ask('Page.navigate', { url: 'about:blank' });
        await ask('Page.navigate', { url: `file://${path.resolve(page)}${hash}` });
        await until(() => value("document.querySelectorAll('#rows tr').length > 0"), 'rows');
    };
    const rows = () => value("[...document.querySelectorAll('#rows tr')].map((row) => [...row.cells].map((it) => it.textContent).join(' '))");
    const marked = () => value("[...document.querySelectorAll('#rows tr.differs')].map((row) => row.cells[0].textContent)");
    const errors = () => value("[...document.querySelectorAll('#errors .error')].map((it) => [...it.children].map((part) => part.textContent).join('\\n'))");
    // Selects the content of a field, as with the keyboard, and types over it.
    const type = async (field, text) => {
        await value(`document.getElementById('${field}').focus(); document.getElementById('${field}').select()`);
        await ask('Input.insertText', { text });
    };

    const ranges = () => value("[...document.querySelectorAll('#ranges tr')].map((row) => [...row.cells].map((it) => it.textContent).join(': '))");
    const heads = () => value("[...document.querySelectorAll('#heads th')].map((it) => it.textContent)");

    await open('');
    await type('range', '1.2.3');
    await type('versions', '1.2.3\n1.2.4\nv1.2.3\n1.2.03');
    expect('the table', await rows(), [
        '1.2.3 yes yes yes yes', '1.2.4 yes no yes no', 'v1.2.3 invalid yes invalid invalid', '1.2.03 invalid invalid invalid invalid',
    ]);
    expect('the marked rows', await marked(), ['1.2.4', 'v1.2.3']);
    expect('the errors', await errors(), [
        "Cargo: invalid version: Cargo doesn't accept a leading v; npm does\nv1.2.3\n^\nDid you mean 1.2.3?",
        'Cargo: invalid version: numbers and identifiers of digits may not have a leading zero\n1.2.03\n    ^^\nDid you mean 1.2.3?',
    ]);
    expect('what the range contains', await ranges(), [
        'Cargo: >=1.2.3 <2.0.0', 'npm: =1.2.3', 'semver-parser 0.10, Cargo mode: >=1.2.3 <2.0.0', 'semver-parser 0.10, npm mode: =1.2.3',
    ]);
    await type('range', '1 || 2');
    expect('the heads', await heads(), ['version', 'Cargo: invalid', 'npm', 'semver-parser 0.10, Cargo mode', 'semver-parser 0.10, npm mode']);
    expect('the first error', (await errors())[0], "Cargo: invalid range: Cargo doesn't accept ||; npm does\n1 || 2\n  ^^");
    expect('a row', (await rows())[1], '1.2.4 – yes yes yes');
    expect('the address', new URLSearchParams(new URL(await value('location.href')).hash.slice(1)).get('range'), '1 || 2');
    await type('range', '>=18446744073709551616');
    expect('a number too large', (await errors())[0],
        'Cargo: invalid range: numbers are at most 2^64 - 1\n>=18446744073709551616\n  ^^^^^^^^^^^^^^^^^^^^');

    await type('range', '^1.2');
    await type('other', '>=1.2.1');
    expect('what is lost and gained', await ranges(), [
        'Cargo: >=1.2.0 <2.0.0: =1.2.0: >=2.0.0', 'npm: >=1.2.0 <2.0.0: =1.2.0: >=2.0.0',
        'semver-parser 0.10, Cargo mode: >=1.2.0 <2.0.0: =1.2.0: >=2.0.0', 'semver-parser 0.10, npm mode: >=1.2.0 <2.0.0: =1.2.0: >=2.0.0',
    ]);
    await type('other', '>=1.2.1 <2');
    expect('another range that is rejected', (await ranges())[0], 'Cargo: >=1.2.0 <2.0.0: invalid: invalid');
    expect('its error', (await errors())[0], 'Cargo: invalid range: Cargo separates comparators by commas\n>=1.2.1 <2\n        ^\nDid you mean >=1.2.1 , <2?');
    expect('the same range by npm', (await ranges())[1], 'npm: >=1.2.0 <2.0.0: =1.2.0: nothing');

    // Colours, on a page with each kind of text.
    for (const scheme of ['light', 'dark']) {
        await ask('Emulation.setEmulatedMedia', { features: [{ name: 'prefers-color-scheme', value: scheme }] });
        await open('#range=1.2.3&other=x%20y&versions=1.2.3%0A1.2.4%0Av1.2.3%0A1.2&preReleases=by-dialect&dialect=cargo');
        expect(`the scheme ${scheme}`, await value(`matchMedia('(prefers-color-scheme: ${scheme})').matches`), true);
        const { count, low } = await value(`(${contrasts})()`);
        if (count < 40) throw new Error(`only ${count} texts are seen`);
        expect(`texts of less contrast than 4.5 in the scheme ${scheme}`, low, []);
    }

    // Texts of a megabyte: one line, and many lines.
    await open('');
    await value(`{ const it = document.getElementById('range'); it.value = ' '.repeat(1e6) + '1.2 || 3.0.0'; it.dispatchEvent(new Event('input')) }`);
    expect('a range of a megabyte', (await rows())[1], '1.2.3 – yes yes yes');
    expect('what it contains', (await ranges())[1], 'npm: >=1.2.0 <1.3.0 || =3.0.0');
    await value(`{ const it = document.getElementById('range'); it.value = Array.from({ length: 1e5 }, (_, at) => '1.' + at).join(' || '); it.dispatchEvent(new Event('input')) }`);
    expect('many ranges', (await rows())[1], '1.2.3 – yes yes yes');
    await type('range', '1');
    await value(`{ const it = document.getElementById('versions'); it.value = '1.2.3-' + 'a'.repeat(1e6) + '\\n1.2.3\\n'.repeat(1e5); it.dispatchEvent(new Event('input')) }`);
    expect('many versions', await value("document.querySelectorAll('#rows tr').length"), 1000);
    expect('how many', await value("document.getElementById('more').textContent"), 'The first 1000 of 100001 lines are shown.');

    await open('#range=%5E1.2&versions=1.3.0-rc.1&preReleases=included&dialect=npm');
    expect('a link', await rows(), ['1.3.0-rc.1 yes yes yes yes']);
    await open('#range=%5E1.2&versions=1.3.0-rc.1&preReleases=by-dialect&dialect=npm');
    expect('the same by default', await rows(), ['1.3.0-rc.1 no no no no']);
    await open('#range=1&versions=1.3.0&preReleases=all&dialect=yarn');
    expect('a link with unknown options', await rows(), ['1.3.0 yes yes yes yes']);
    expect('requests', await value("performance.getEntriesByType('resource').length"), 0);

    await ask('Emulation.setEmulatedMedia', { features: [{ name: 'prefers-color-scheme', value: 'light' }] });
    await open(`#${new URLSearchParams(SHOWN)}`);
    const words = await value(`(${wordsOf})()`);
    if (draw) {
        const size = async (height) => ask('Emulation.setDeviceMetricsOverride', { width: 860, height, deviceScaleFactor: 1, mobile: false });
        await size(100);
        await size(await value('document.documentElement.scrollHeight'));
        const { data } = await ask('Page.captureScreenshot', { format: 'png' });
        fs.writeFileSync(picture, withText(Buffer.from(data, 'base64'), words));
    } else {
        expect('the text of the picture, which `tests/page.sh draw` takes anew,', textOf(fs.readFileSync(picture)), words);
    }
    await ask('Emulation.setEmulatedMedia', { features: [] });
    await openPackage(ask, value);
}

// ---- the picture, which has the text of the page in a chunk of PNG

// Runs in the page. Returns all words that it shows, also those in fields.
function wordsOf() {
    const fields = [...document.querySelectorAll('input, textarea, select')];
    const shown = fields.map((it) => (it.selectedOptions ? it.selectedOptions[0].textContent : it.value));
    return [document.querySelector('main').innerText, ...shown].join('\n');
}

const KEYWORD = 'Description';

// The chunks of a file of PNG: the type of each, its data, and where it begins and ends.
function* chunksOf(file) {
    for (let at = 8; at < file.length;) {
        const end = at + 12 + file.readUInt32BE(at);
        yield { type: file.toString('latin1', at + 4, at + 8), data: file.subarray(at + 8, end - 4), at, end };
        at = end;
    }
}

function crc32(bytes) {
    let crc = ~0;
    for (const byte of bytes) {
        crc ^= byte;
        for (let bit = 0; bit < 8; bit += 1) crc = (crc >>> 1) ^ (crc & 1 ? 0xedb88320 : 0);
    }
    return ~crc >>> 0;
}

// A file of PNG with a text, which is not compressed and without a language (iTXt), after its head.
function withText(file, text) {
    const [{ end }] = chunksOf(file);
    const body = Buffer.from(`iTXt${KEYWORD}\0\0\0\0\0${text}`);
    const numbers = Buffer.alloc(8);
    numbers.writeUInt32BE(body.length - 4);
    numbers.writeUInt32BE(crc32(body), 4);
    return Buffer.concat([file.subarray(0, end), numbers.subarray(0, 4), body, numbers.subarray(4), file.subarray(end)]);
}

// The text of such a file; null if it has none.
function textOf(file) {
    const found = [...chunksOf(file)].find(({ type, data }) => type === 'iTXt' && data.toString('latin1').startsWith(`${KEYWORD}\0`));
    return found ? found.data.toString('utf8', KEYWORD.length + 5) : null;
}

// What is served next to the package: a page that compiles its module, and one that its policy
// forbids to, and that gets the module from a worker that may.
const SERVED = {
    '/compiles.html': '<script type="module" src="/compiles.mjs"></script>',
    '/compiles.mjs': `import { ready, satisfies } from '/browser.mjs'
        await ready()
        document.title = satisfies('1.9.0', '^1.2')`,
    '/forbidden.html': '<script type="module" src="/forbidden.mjs"></script>',
    '/forbidden.mjs': `import { init, ready, valid } from '/browser.mjs'
        const refused = await ready().then(() => '', (error) => error.name)
        const worker = new Worker('/worker.mjs', { type: 'module' })
        worker.onmessage = ({ data }) => {
            init(data)
            document.title = refused + ' ' + valid('v1.2.3')
        }`,
    '/worker.mjs': "postMessage(await WebAssembly.compileStreaming(fetch('/semver_parser.wasm')))",
};
const TYPES = { '.html': 'text/html', '.mjs': 'text/javascript', '.wasm': 'application/wasm' };

function serve({ url }, response) {
    const policy = url === '/forbidden.html' ? { 'Content-Security-Policy': "default-src 'self'" } : {};
    const file = path.join(package_, path.basename(url));
    const body = SERVED[url] ?? (fs.existsSync(file) ? fs.readFileSync(file) : null);
    const type = TYPES[path.extname(url)] ?? 'text/plain';
    response.writeHead(body === null ? 404 : 200, { 'Content-Type': type, ...policy });
    response.end(body ?? '');
}

async function openPackage(ask, value) {
    const server = http.createServer(serve);
    await new Promise((resolve) => server.listen(0, '127.0.0.1', resolve));
    const { port } = server.address();
    for (const [name, right] of [['compiles', 'true'], ['forbidden', 'CompileError 1.2.3']]) {
        await ask('Page.navigate', { url: 'about:blank' });
        await ask('Page.navigate', { url: `http://127.0.0.1:${port}/${name}.html` });
        await until(async () => await value('document.title') !== '', 'title');
        expect(`the file for browsers, ${name}`, await value('document.title'), right);
    }
    server.close();
}

// Runs in the page. Returns how many elements have their own text, and which of them have a
// contrast below 4.5 (WCAG 2.1, 1.4.3) with what is below them.
function contrasts() {
    const numbers = (color) => {
        const found = color.match(/[\d.]+(?:e-?\d+)?/g).map(Number);
        const scale = color.startsWith('color(') ? 1 : 255;
        return [...found.slice(0, 3).map((it) => it / scale), found[3] ?? 1];
    };
    const over = ([...front], below) => {
        const alpha = front.pop();
        return [...front.map((it, at) => it * alpha + below[at] * (1 - alpha)), 1];
    };
    const luminance = (color) => {
        const [red, green, blue] = color.map((it) => (it <= 0.04045 ? it / 12.92 : ((it + 0.055) / 1.055) ** 2.4));
        return 0.2126 * red + 0.7152 * green + 0.0722 * blue;
    };
    const isDark = matchMedia('(prefers-color-scheme: dark)').matches;
    const below = (element) => {
        const under = element.parentElement ? below(element.parentElement) : isDark ? [0, 0, 0, 1] : [1, 1, 1, 1];
        return over(numbers(getComputedStyle(element).backgroundColor), under);
    };
    const hasText = (it) => /^(INPUT|TEXTAREA|SELECT)$/.test(it.tagName) || [...it.childNodes].some((node) => node.nodeType === 3 && node.data.trim() !== '');
    const shown = [...document.body.querySelectorAll('*')].filter((it) => hasText(it) && it.getClientRects().length > 0);
    const ratio = (it) => {
        const ground = below(it);
        const [high, low] = [over(numbers(getComputedStyle(it).color), ground), ground].map(luminance).sort((a, b) => b - a);
        return (high + 0.05) / (low + 0.05);
    };
    const low = shown.filter((it) => ratio(it) < 4.5).map((it) => `${it.tagName} ${it.className} ${ratio(it).toFixed(2)}`);
    return { count: shown.length, low };
}

function expect(what, found, right) {
    if (JSON.stringify(found) === JSON.stringify(right)) return;
    throw new Error(`${what}: ${JSON.stringify(found)} instead of ${JSON.stringify(right)}`);
}

// Half an hour, in case it hangs.
const timer = setTimeout(() => fail(new Error('Chromium does not respond')), 1800000);

function fail(error) {
    console.log(`page: ${error.message}`);
    chromium.kill();
    process.exit(1);
}

main().then(() => {
    clearTimeout(timer);
    chromium.kill();
    console.log('page: typed and read in Chromium, passed');
}, fail);
