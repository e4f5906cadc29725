// Renews the page as the day goes on, without moving what is looked at, and brings more rows as a long list is scrolled down.
'use strict';

const SOON = 250;               // milliseconds from one renewal to the next, at least; where one takes long, three times as long as it took
const STALE = {'/': 5000, '/connections': 900};     // after which these pages are renewed though nothing was entered: the clock and STATUS change them
const LOST = 4000;              // without a word from the page's program

let stream = null, change = null, heard = Date.now(), since = 0, took = 0, isRenewing = false, isDue = false;

const part = id => document.getElementById(id);

// A part of the page becomes what it is now. A child with an id is known by it, so a row keeps its element, its focus and its place.

function become(old, now) {
    if (old.isEqualNode(now)) return;
    if (old.nodeType !== Node.ELEMENT_NODE) { old.data = now.data; return; }
    for (const {name} of [...old.attributes]) if (!now.hasAttribute(name)) old.removeAttribute(name);
    for (const {name, value} of now.attributes) if (old.getAttribute(name) !== value) old.setAttribute(name, value);
    const ids = new Set([...now.children].map(child => child.id).filter(Boolean)), known = new Map();
    for (const child of [...old.children]) if (child.id) ids.has(child.id) ? known.set(child.id, child) : child.remove();
    let place = old.firstChild;
    for (const child of [...now.childNodes]) {
        const isLike = place && !place.id && !child.id && place.nodeName === child.nodeName, same = known.get(child.id) ?? (isLike ? place : null);
        if (!same) { old.insertBefore(child, place); continue; }
        if (same === place) place = place.nextSibling; else old.insertBefore(same, place);
        become(same, child);
    }
    while (place) { const next = place.nextSibling; place.remove(); place = next; }
}

// The first row that is in sight stays where it is in the window.

function rowInSight() {
    if (!window.scrollY) return null;
    for (let y = document.querySelector('header').offsetHeight + 8; y < window.innerHeight; y += 20) {
        const row = document.elementFromPoint(60, y)?.closest('main tr[id], main section');
        if (row) return row;
    }
    return null;
}

function show(text) {
    const now = new DOMParser().parseFromString(text, 'text/html'), row = rowInSight(), before = row?.getBoundingClientRect().top, focused = document.activeElement;
    if (!now.querySelector('main')) return;
    for (const name of ['main', 'header .tabs', 'footer']) become(document.querySelector(name), now.querySelector(name));
    if (row?.isConnected) window.scrollBy(0, row.getBoundingClientRect().top - before);
    if (focused?.isConnected && focused !== document.activeElement) focused.focus({preventScroll: true});
    document.title = now.title;
    watchEnd();
}

const isMarking = () => { const marked = window.getSelection(); return marked.type === 'Range' && document.querySelector('main').contains(marked.anchorNode); };

async function renew() {
    isDue = true;
    if (isRenewing || document.hidden || isMarking()) return;
    isRenewing = true;
    await new Promise(done => setTimeout(done, Math.max(SOON, 3 * took) - (performance.now() - since)));
    isDue = false;
    since = performance.now();
    try {
        const answer = await fetch(location.href, {cache: 'no-store'});
        if (answer.ok) { show(await answer.text()); heard = Date.now(); }
    } catch { /* the stream says that the program is gone */ }
    took = performance.now() - since;
    isRenewing = false;
    if (isDue) renew();
}

// How it goes, which comes each second.

function say(level, word, text, facts) {
    const pill = part('pill'), banner = part('banner');
    if (pill.textContent !== word) pill.textContent = word;
    pill.className = `pill ${level}`;
    if (facts) become(part('facts'), factsOf(facts));
    banner.className = level;
    banner.hidden = level === 'good';
    const bold = document.createElement('b');
    bold.textContent = word;
    banner.replaceChildren(bold, `: ${text}`);
}

function factsOf(facts) {
    const all = Object.assign(document.createElement('span'), {id: 'facts'});
    for (const fact of facts) all.append(Object.assign(document.createElement('span'), {className: 'fact', textContent: fact}));
    return all;
}

function listen() {
    stream?.close();
    stream = new EventSource('/events');
    stream.onmessage = event => {
        const state = JSON.parse(event.data);
        heard = Date.now();
        say(state.level, state.word, state.text, state.facts);
        const old = performance.now() - since;
        if (state.change !== change || old > STALE[location.pathname]) { change = state.change; renew(); }
    };
}

function watch() {
    if (document.hidden) return;
    const silent = Date.now() - heard;
    if (stream.readyState === EventSource.CLOSED && silent > LOST) listen();
    if (silent > LOST && stream.readyState !== EventSource.OPEN || silent > 3 * LOST) {
        say('bad', 'page lost', `tools/page has not answered this browser for ${Math.round(silent / 1000)} s. What is shown is what it had by then. It is tried again.`);
    }
}

// A long list: as the link at its end comes into sight, the rows after those that are shown are put below them. The address has how many there are.

const end = new IntersectionObserver(seen => { if (seen.some(entry => entry.isIntersecting)) more(); }, {rootMargin: '800px'});

function watchEnd() {
    end.disconnect();
    const link = document.querySelector('a[data-more]');
    if (link) end.observe(link);
}

async function more() {
    const link = document.querySelector('a[data-more]'), body = link?.closest('section').querySelector('tbody');
    if (!body || isRenewing) return;
    isRenewing = true;
    const address = new URL(link.href), rest = new URL(link.href);
    rest.searchParams.set('from', body.rows.length);
    try {
        const text = await (await fetch(rest, {cache: 'no-store'})).text();
        const list = new DOMParser().parseFromString(text, 'text/html').querySelector('section[data-list]');
        body.append(...[...list.querySelectorAll('tbody tr')].filter(row => !part(row.id)));
        link.closest('p').replaceWith(...list.querySelectorAll('.end'));
        history.replaceState(null, '', address);
    } catch { /* the stream says that the program is gone */ }
    isRenewing = false;
    watchEnd();
    if (isDue) renew();
}

document.addEventListener('click', event => { if (event.target.closest?.('a[data-more]')) { event.preventDefault(); more(); } });

// Keys.

document.addEventListener('keydown', event => {
    const isTyping = event.target.matches('input, textarea, select'), tabs = document.querySelectorAll('header .tabs a');
    if (event.ctrlKey || event.metaKey || event.altKey) return;
    if (isTyping) { if (event.key === 'Escape') { event.target.blur(); part('main').focus({preventScroll: true}); } return; }
    if (event.key === '/') { event.preventDefault(); const search = document.querySelector('header input'); search.focus(); search.select(); }
    else if (/^[1-9]$/.test(event.key) && tabs[event.key - 1]) tabs[event.key - 1].click();
});

document.addEventListener('visibilitychange', () => { if (document.hidden) stream.close(); else { heard = Date.now(); listen(); renew(); } });
document.addEventListener('selectionchange', () => { if (isDue && !isMarking()) renew(); });
setInterval(watch, 1000);
listen();
watchEnd();
