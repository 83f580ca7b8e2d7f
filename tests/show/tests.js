// The tests of pages in a browser: each of `jobs` opens a page in a frame of its size, does one of these tests on it, and posts
// what it returned to tests/show/pages.py. A test clicks and presses keys as a reader does, and looks at what is shown.
'use strict';

const assert = (holds, what) => { if (!holds) throw new Error(what); };
const visible = element => element.getClientRects().length > 0;
const key = (target, name, more = {}) => {
  const event = new target.ownerDocument.defaultView.KeyboardEvent('keydown', { key: name, bubbles: true, cancelable: true, ...more });
  target.dispatchEvent(event);
  return event.defaultPrevented;
};
const whereOf = $ => Number(/^event (\d+) of/.exec($('where').textContent)[1]);

const bare = text => text.replace(/[*`]|\[\[|\]\]/g, '').replace(/\s+/g, ' ').trim();
const textOf = element => element.textContent.replace(/\s+/g, ' ').trim();
const same = (found, due, what) => assert(JSON.stringify(found) === JSON.stringify(due), what + ' is ' + JSON.stringify(found) + ', and ' + JSON.stringify(due) + ' is due');

// Follows an address, after the page has written its own: it does that a moment after a move.
async function follow(view, address) {
  await new Promise(go => setTimeout(go, 300));
  if (view.location.hash === address) return;
  const followed = new Promise(go => view.addEventListener('hashchange', () => setTimeout(go, 0), { once: true }));
  view.location.hash = address;
  await followed;
}

// The machine of the page and its texts, by which a run is made again beside the one that is drawn.
function partsOf(page, view) {
  if (!view.parts_of_the_page) {
    const script = page.createElement('script');
    script.textContent = 'window.parts_of_the_page = { Machine, Telling }';
    page.body.append(script);
  }
  return view.parts_of_the_page;
}

// The boxes of an element: of each the names over it, its lines, and the text of its arrow.
const boxesIn = element => [...element.querySelectorAll('.boxes > li')].map(li => [[...li.querySelectorAll('.end')].map(textOf), [...li.querySelector('.box').children].map(textOf), textOf(li.querySelector('.stack ~ .arrow') || li.ownerDocument.createElement('i'))]);
const boxesDue = boxes => boxes.map(box => [box.ends.map(end => end.text), box.lines, box.arrow ? box.arrow.text : '']);

// The texts that are drawn of a run are those that tests/show/reads.py decides.
function isDrawn($, { Telling }, run, prefix, when) {
  for (let x = -1; x < run.groups; x++) {
    const told = Telling.chain(run, x), element = $(prefix + 'chain' + x);
    same(textOf(element.querySelector('.head')), told.head.map(bare).join(' '), 'the turn in the ' + told.name + when);
    same(boxesIn(element), [...boxesDue(told.done).map(([ends, lines, arrow]) => [[...ends, 'marked done'], lines, arrow]), ...boxesDue(told.boxes)], 'the ' + told.name + when);
    same([...element.querySelectorAll('.word')].map(textOf), told.spare.map(one => one.text), 'what is in no chain' + when);
  }
  const told = Telling.list(run);
  same(boxesIn($(prefix + 'list')), boxesDue([...told.rows.flat(), ...told.free]), 'the list' + when);
  same([...$(prefix + 'list').querySelectorAll('.word')].map(textOf), told.words.map(word => word.name + ' ' + word.text), 'the words of the list' + when);
}

// All cards of the run that is driven.
function isShown($, parts, run, when) {
  const { Telling } = parts, line = Telling.program(run);
  assert(textOf($('event')).startsWith(bare(Telling.event(run).join(' '))), 'the event is ' + textOf($('event')) + when);
  isDrawn($, parts, run, '', when);
  same([...$('waits').children].map(textOf), Telling.waits(run).map(one => bare(one.text)), 'who waits' + when);
  same([...$('names').querySelectorAll('.step')].map(button => textOf(button.children[2])), [...Array(run.rows).keys()].map(row => Telling.pass(run, row).text), 'the passes' + when);
  if (line) {
    same(textOf($('holds')), bare(line.holds), 'what holds' + when);
    same(textOf($('program').querySelector('.lit').firstChild), line.line.trim(), 'the line' + when);
  }
  same(textOf($('breaks')), Telling.banner(Telling.broken(run)), 'what is broken' + when);
}

// The luminance of a colour and the contrast of two, by WCAG 2.
const luminance = ([r, g, b]) => [r, g, b].map(v => v / 255).map(v => v <= 0.04045 ? v / 12.92 : ((v + 0.055) / 1.055) ** 2.4).reduce((sum, v, i) => sum + v * [0.2126, 0.7152, 0.0722][i], 0);
const contrast = (a, b) => { const [low, high] = [luminance(a), luminance(b)].sort((x, y) => x - y); return (high + 0.05) / (low + 0.05); };
const colour = text => { const of = text.match(/[\d.]+/g).map(Number); return of.length < 4 ? [...of.slice(0, 3), 1] : of; };
const over = (front, back) => front.slice(0, 3).map((v, i) => v * front[3] + back[i] * (1 - front[3]));

// Each text that is seen has a contrast of 4.5 to its background. Returns how many there are.
function contrasted(page, view, when) {
  let texts = 0;
  const back = colour(view.getComputedStyle(page.body).backgroundColor);
  const background = element => {
    const layers = [];
    for (let at = element; at && at !== page.documentElement; at = at.parentElement) {
      const style = view.getComputedStyle(at);
      assert(style.opacity === '1', 'a text is pale: ' + element.textContent);
      if (at.tagName === 'g') {
        const rect = at.querySelector('rect');
        const fill = rect && view.getComputedStyle(rect).fill;
        if (fill && fill !== 'none') layers.push(colour(fill));
      } else if (!(at instanceof view.SVGElement)) layers.push(colour(style.backgroundColor));
    }
    return layers.reverse().reduce((under, layer) => over(layer, under), back.slice(0, 3));
  };
  const walker = page.createTreeWalker(page.body, view.NodeFilter.SHOW_TEXT);
  while (walker.nextNode()) {
    const element = walker.currentNode.parentElement;
    if (!walker.currentNode.textContent.trim() || ['SCRIPT', 'NOSCRIPT', 'title', 'OPTION'].includes(element.tagName) || !visible(element)) continue;
    const style = view.getComputedStyle(element);
    const front = element instanceof view.SVGElement ? style.fill : style.color;
    const ratio = contrast(colour(front), background(element));
    assert(ratio >= 4.5, element.textContent + ' has the contrast ' + ratio.toFixed(2) + when());
    texts++;
  }
  return texts;
}

const tests = {
  // Steps to the end by keys, back to the opening, and returns the history, the plan and the report of the end.
  walk({ $, player, job }) {
    // The lanes are as wide as the frame, and that has a scroll bar where the page is long
    const shown = () => ['event', 'names', 'chains', 'list', 'history'].map(id => $(id).innerHTML).join();
    const opening = shown();
    const events = Number($('slider').max);
    // Of a long run the first two hundred events and the last two hundred, one by one, each with its layout
    const some = Math.min(events, 200);
    const took = [];
    const steps = name => {
      for (let i = 0; i < some; i++) {
        const begun = performance.now();
        key(player, name);
        void player.ownerDocument.body.offsetHeight;
        took.push(performance.now() - begun);
      }
    };
    steps('ArrowRight');
    key(player, 'End');
    for (let round = 1; round < job.rounds; round++) steps(round % 2 ? 'ArrowLeft' : 'ArrowRight');
    key(player, 'End');
    assert(whereOf($) === events, 'it ends at ' + $('where').textContent);
    const lines = [...$('history').querySelectorAll('tr')].map(row => { const [place, call, answer] = [...row.children].map(cell => cell.textContent); return place + ' ' + call + ' -> ' + answer; });
    $('export').click();
    const texts = { plan: $('plan').value, report: $('whole').textContent };
    $('texts').open = false;
    key(player, 'Home');
    assert(shown() === opening, 'back at the opening it looks otherwise');
    took.sort((a, b) => a - b);
    return { events, lines, took: took[took.length >> 1], ...texts };
  },

  // Random steps by clicks, and the plan and the report after them.
  drive({ $, job }) {
    const rows = $('caller').options.length;
    const senders = [...$('caller').options].filter(option => option.text[0] === 's').length;
    driveAtRandom({
      rows,
      senders,
      step(row) {
        const before = $('where').textContent;
        $('names').querySelector('.step[data-row="' + row + '"]').click();
        return $('where').textContent !== before;
      },
      back: () => $('back').click(),
      add(row, words) {
        $('names').querySelector('.more[data-row="' + row + '"]').click();
        if (row < senders && words) { $('body').value = words.join(' '); $('add-send').click(); }
        else if (row < senders) $('add-close').click();
        assert($('hint').hidden, 'a call is refused: ' + $('hint').textContent);
      },
    }, job.seed, job.steps, job.words);
    $('export').click();
    return { events: whereOf($), plan: $('plan').value, report: $('whole').textContent };
  },

  // A run by hand: branches, folded waits, what is refused, and what the player's buttons and keys do.
  hands({ $ }) {
    const step = (row, times = 1) => { for (let i = 0; i < times; i++) $('names').querySelector('.step[data-row="' + row + '"]').click(); };
    const add = (row, text) => { $('caller').value = row; $('caller').dispatchEvent(new Event('change')); $('body').value = text; $('add-send').click(); };
    const cells = () => [...$('cells').querySelectorAll('.cell')].filter(cell => /waits/.test(cell.textContent)).map(cell => cell.querySelector('text').textContent);
    step(0);
    assert(whereOf($) === 0 && /no call left/.test($('hint').textContent), 'a pass without a call steps');
    for (const body of ['', 'x', '-1', '18446744073709551616', '1 2 3 4 5']) {
      add(0, body);
      assert(/one to four words/.test($('hint').textContent), 'the body ' + body + ' is accepted');
    }
    add(0, '7');
    add(1, '8');
    assert($('hint').hidden, 'a body is refused');
    step(0, 3);
    // reset the link and the state, exchange, two words of the request, link, and six reads of a state that waits
    step(1, 12);
    assert(whereOf($) === 15, 'fifteen clicks lead to ' + $('where').textContent);
    assert(cells().join() === '6\u00d7', 'the waits are ' + cells().join());
    $('back').click();
    step(0);
    step(1, 3);
    assert(cells().join() === 'waits 8\u00d7', 'the waits around a step of another pass are ' + cells().join());
    assert($('branches').options.length === 3 && $('branches').value === '2', 'there are ' + $('branches').options.length + ' runs');
    $('branches').value = '1';
    $('branches').dispatchEvent(new Event('change'));
    assert($('where').textContent === 'event 15 of 15' && cells().join() === '6\u00d7', 'the first branch is at ' + $('where').textContent);
    $('branches').value = '0';
    $('branches').dispatchEvent(new Event('change'));
    assert($('where').textContent === 'event 0 of 0', 'the run of the plan is at ' + $('where').textContent);
    return true;
  },

  // Buttons, keys, the turns and the badges, on the page of examples/bodies_of_words.json.
  async player({ $, player, page, wait }) {
    for (const name of ['PageDown', 'PageUp', 'Home', 'End']) assert(!key(page.body, name) && whereOf($) === 0, name + ' outside of the player moves');
    assert(key(page.body, 'ArrowRight') && whereOf($) === 1 && key(page.body, 'ArrowLeft') && whereOf($) === 0, 'the arrows do not step');
    for (const name of ['ArrowRight', ' ', 'd', '1']) assert(!key($('body'), name) && !key($('plan'), name) && whereOf($) === 0, name + ' in a text is taken');
    for (const place of [page.body, $('next'), $('speed'), $('names').querySelector('.step'), $('lanes'), $('slider')]) {
      assert(key(place, ' ') && $('play').textContent === 'stop' && key(place, ' ') && $('play').textContent === 'play', 'space does not play at ' + place.id);
    }
    assert(key(player, 'PageDown') && /Decided: accepted as item 0/.test($('event').textContent), 'Page down leads to ' + $('event').textContent);
    const first = whereOf($);
    $('after').click();
    assert(/Decided: accepted as item 1/.test($('event').textContent), 'the next decision is ' + $('event').textContent);
    $('before').click();
    assert(whereOf($) === first, 'back to a decision leads elsewhere');
    assert(/tail/.test($('chain-1').textContent) && /serves this/.test($('chain-1').querySelector('.end.serves').textContent), 'no node is being served');
    // s3 serves its own call first, then that of s2, and then that of s1 (examples/README.md)
    assert(key(page.body, 'D') || key(page.body, 'd'), 'the keys of decisions do nothing');
    key(player, 'Home');
    for (let k = 0; k < 3; k++) key(player, 'PageDown');
    for (let k = 0; k < 9; k++) key(page.body, 'ArrowRight');
    const turns = [...$('turns').querySelectorAll('.turn text')].map(text => text.textContent);
    assert(turns.includes('s3 for s3, s2, s1'), 'the turns are ' + turns.join('; '));
    key(player, 'Home');
    assert(/dummy/.test($('list').textContent) && /passed by 0 of 1/.test($('list').textContent), 'the dummy is ' + $('list').textContent);
    // at the end play begins again
    key(player, 'End');
    $('speed').value = 1000;
    assert(key(player, ' ') && whereOf($) === 0 && key(player, ' '), 'play at the end leads to ' + $('where').textContent);
    for (const [speed, least] of [[1000, 1], [33, 8]]) {
      $('speed').value = speed;
      key(player, 'Home');
      const begun = performance.now();
      assert(key(player, ' '), 'space in the player does not play');
      await wait(1500);
      const went = whereOf($), most = (performance.now() - begun) / speed + 1;
      assert(key(player, ' ') && $('play').textContent === 'play', 'space does not stop the play');
      assert(went >= least && went <= most, 'at an event each ' + speed + ' ms it went to ' + went + ' in 1.5 s');
    }
    return true;
  },

  // A turn that isn't over reaches to now, and turns and lanes have one scale.
  turns({ $ }) {
    const step = (row, times) => { for (let i = 0; i < times; i++) $('names').querySelector('.step[data-row="' + row + '"]').click(); };
    const bars = () => [...$('turns').querySelectorAll('.turn')].map(turn => ({ name: turn.querySelector('text').textContent, from: turn.dataset.event,
      left: turn.querySelector('rect').getBoundingClientRect().left, right: Math.max(...[...turn.querySelectorAll('rect')].map(rect => rect.getBoundingClientRect().right)) }));
    step(1, 6);
    step(0, 12);
    for (let round = 0; round < 8; round++) {
      const now = $('turns').querySelector('line.now').getBoundingClientRect().right, mine = bars().find(bar => bar.name.startsWith('r1'));
      assert(mine && Math.abs(mine.right - now) <= 4, 'the turn of r1 ends at ' + (mine && mine.right) + ', and now is at ' + now);
      for (const bar of bars()) {
        const cell = $('cells').querySelector('.cell[data-event="' + bar.from + '"] rect');
        assert(!cell || Math.abs(cell.getBoundingClientRect().left - bar.left) <= 2, 'the turn of event ' + bar.from + ' begins beside its cell');
      }
      step(0, 4);
    }
    return true;
  },

  // Each lesson by its link, by each of its tables: its title and text, its moments by keys, and all that is drawn at each; a broken
  // queue breaks a law, and the right one beside it doesn't.
  lessons({ $, page, view }) {
    const parts = partsOf(page, view), { Machine, Telling } = parts;
    for (const lesson of Telling.lessons($('lessons').textContent)) {
      const link = page.querySelector('#choose a[data-of=lesson][data-id=' + lesson.id + ']');
      link.click();
      assert(link.classList.contains('here') && page.querySelectorAll('#choose .here').length === 1, 'the link isn\'t marked as the one that is open');
      for (const table of lesson.table ? [lesson.table, ''] : ['']) {
        if (lesson.table && !table) $('compare').click();
        const { title, text, moments } = Telling.lessonPart(lesson, table), run = Machine.open(Machine.planOfText(JSON.stringify(lesson.plan)), table);
        const pair = lesson.table ? Machine.beside(run, table ? '' : lesson.table) : null;
        assert(textOf($('lesson-title')).endsWith(title) && textOf($('lesson-text')) === bare(text), lesson.id + ' has the title ' + textOf($('lesson-title')) + ' and the text ' + textOf($('lesson-text')));
        key($('player'), 'Home');
        moments.forEach(([event, , moment], k) => {
          assert(key(page.body, 'm'), 'm is not taken');
          const when = ' at moment ' + (k + 1) + ' of ' + title;
          assert(whereOf($) === event && textOf($('moments').querySelector('.here')) === String(k + 1), 'm leads to ' + $('where').textContent + when);
          same(textOf($('moment-text')), bare(moment), 'the moment' + when);
          run.goTo(event);
          isShown($, parts, run, when);
          assert(!$('other').hidden === !!pair, 'the other queue is ' + ($('other').hidden ? 'hidden' : 'shown') + when);
          if (!pair) return;
          pair.follow();
          isDrawn($, parts, pair.run, 'other-', ' of the other queue' + when);
          same([textOf($('side-event')), textOf($('other-event'))], [run, pair.run].map(one => bare(Telling.event(one).join(' '))), 'the events of both' + when);
          assert(textOf($('parting')).startsWith(Telling.parting(pair)), 'the parting is ' + textOf($('parting')) + when);
        });
        key($('player'), 'End');
        assert(($('breaks').textContent !== '') === (table !== ''), title + ' says of laws: ' + $('breaks').textContent);
        assert(!lesson.table || (table ? textOf($('law')).includes(bare(lesson.lost)) : /no law is broken/.test($('law').textContent)) && $('law').querySelector('ins'), title + ' says of the law: ' + textOf($('law')));
        // to where the two queues part, and all steps of the run, each with its line
        if (pair) {
          $('parting').querySelector('button').click();
          assert(whereOf($) === pair.parts + 1, 'the button leads to ' + $('where').textContent + ' of ' + title);
        }
        key($('player'), 'Home');
        for (let i = Number($('slider').max); i > 0; i--) {
          key(page.body, 'ArrowRight');
          assert($('program').querySelectorAll('.lit').length === 1, 'no line is lit at ' + $('event').textContent);
        }
      }
    }
    return true;
  },

  // Side by side: on and off by its button, for a branch by hand too.
  beside({ $, page, view }) {
    page.querySelector('#choose a[data-id=handed_past]').click();
    assert($('pair').getAttribute('aria-pressed') === 'true' && visible($('other')), 'the other queue is not beside');
    const [left, right] = [$('sides').children[0], $('other')].map(side => side.getBoundingClientRect());
    assert(left.right <= right.left && Math.abs(left.top - right.top) < 2, 'the two queues are not side by side');
    same(['side-title', 'other-title'].map(id => textOf($(id))), ['The broken queue', 'The right queue'], 'the titles of the two');
    // both chains are whole and in view, and so is the first node of each list, at each moment
    for (const lesson of partsOf(page, view).Telling.lessons($('lessons').textContent).filter(one => one.table)) {
      page.querySelector('#choose a[data-of=lesson][data-id=' + lesson.id + ']').click();
      $('stage').scrollIntoView();
      while (key(page.body, 'm') && Number(textOf($('moments').querySelector('.here'))) < $('moments').children.length) {
        const bar = $('player').getBoundingClientRect().bottom, height = page.documentElement.clientHeight, when = ' at ' + $('where').textContent + ' of ' + lesson.id;
        for (const prefix of ['', 'other-']) {
          const boxes = [...$(prefix + 'chains').querySelectorAll('.box')].filter(visible);
          assert(boxes.length, 'no chain is drawn' + when);
          for (const box of [...boxes, $(prefix + 'list').querySelector('.box')]) {
            const { left, right, top, bottom } = box.getBoundingClientRect(), of = box.closest('.card').getBoundingClientRect();
            assert(left >= of.left && right <= of.right && top >= bar && bottom <= height, textOf(box) + ' is at ' + top + ' to ' + bottom + ', ' + left + ' to ' + right + when);
          }
        }
      }
    }
    page.querySelector('#choose a[data-id=handed_past]').click();
    $('pair').click();
    assert($('pair').getAttribute('aria-pressed') === 'false' && !visible($('other')), 'the other queue stays');
    $('pair').click();
    // a branch: s1 alone, and then s2; no box differs as long as both do the same
    key($('player'), 'Home');
    assert(!page.querySelector('.box.differs'), 'a box differs at the opening');
    for (let k = 0; k < 6; k++) key(page.body, '1');
    for (let k = 0; k < 6; k++) key(page.body, '2');
    for (let k = 0; k < 21; k++) key(page.body, '1');
    assert(/^Broken: A hand-over/.test($('breaks').textContent), 'the branch breaks ' + $('breaks').textContent);
    assert(/part at event 32\./.test($('parting').textContent), 'the branch says: ' + textOf($('parting')));
    // the right queue hands over to s2, and the broken one leaves it behind
    const box = (id, name) => [...$(id).querySelectorAll('.box')].map(one => [...one.children].map(textOf)).find(lines => lines[0] === name);
    const marks = [...$('sides').querySelectorAll('.box.differs b')].map(textOf);
    assert(marks.includes('node 1'), 'marked are ' + marks.join(', '));
    same(['other-chain-1', 'chain-1'].map(id => box(id, 'node 1')), [['node 1', 's2 sends 2', 'state 0: serve'], ['node 1', 's2 sends 2', 'state 1: wait']], 'the node of s2');
    return true;
  },

  // The lecture: each screen of each lesson has its title, one sentence, the chain, the list and the line of the program, in large
  // letters, in view without scrolling, with at most ten controls; and the keys of a presenter's clicker lead through all of them.
  async lecture({ $, page, view, wait }) {
    const parts = partsOf(page, view), { Machine, Telling } = parts, root = page.documentElement;
    const lessons = Telling.lessons($('lessons').textContent).filter(lesson => lesson.moments.length);
    const size = element => parseFloat(view.getComputedStyle(element).fontSize);
    page.querySelector('#choose a[data-id=lone]').click();
    assert(key(page.body, 'l') && visible($('lecture')) && !visible($('stage')), 'l does not begin the lecture');
    let count = 0;
    for (const lesson of lessons) {
      const runs = new Map(), open = table => { if (!runs.has(table)) runs.set(table, Machine.open(Machine.planOfText(JSON.stringify(lesson.plan)), table)); return runs.get(table); };
      const pair = lesson.table ? Machine.beside(open(lesson.table), '') : null, screens = Telling.screens(lesson, pair);
      for (const [at, screen] of screens.entries()) {
        const when = ' at screen ' + (at + 1) + ' of ' + lesson.id, run = open(screen.table);
        run.goTo(screen.event);
        same([textOf($('lecture-title')), textOf($('lecture-text')), textOf($('lecture-count'))], [screen.title, bare(screen.text), 'screen ' + (at + 1) + ' of ' + screens.length], 'the screen' + when);
        const sides = [...$('lecture-sides').children], shown = screen.kind === 'pair' ? [run, pair.follow().run] : [run];
        same(sides.length, shown.length, 'the number of pictures' + when);
        sides.forEach((side, k) => {
          const [chain, list] = side.querySelectorAll('.part'), e = shown[k].now ? shown[k].events[shown[k].now - 1] : shown[k].events[0];
          const told = Telling.chain(shown[k], e.x), due = Telling.list(shown[k]);
          same(boxesIn(chain), [...boxesDue(told.done).map(([ends, lines, arrow]) => [[...ends, 'marked done'], lines, arrow]), ...boxesDue(told.boxes)], 'the chain' + when);
          assert(textOf(chain.querySelector('h3')).endsWith(told.head.map(bare).join(' ')), 'the turn is ' + textOf(chain.querySelector('h3')) + when);
          same(boxesIn(list), boxesDue([...due.rows.flat(), ...due.free]), 'the list' + when);
          assert(chain.getBoundingClientRect().bottom <= list.getBoundingClientRect().top + 1, 'the list is above the chain' + when);
          for (const strip of side.querySelectorAll('.strip')) assert(strip.scrollWidth <= strip.clientWidth + 1, 'a row of nodes is wider than its room' + when);
          assert(size(chain.querySelector('.boxes')) >= (shown.length > 1 ? 13 : 17) && size(list.querySelector('.boxes')) >= (shown.length > 1 ? 12.5 : 14), 'the nodes have letters of ' + size(chain.querySelector('.boxes')) + ' and ' + size(list.querySelector('.boxes')) + when);
        });
        same([...$('lecture-line').querySelectorAll('code')].map(textOf), shown.map(one => Telling.program(one)).filter(told => told).map(told => told.line.trim()), 'the line of the program' + when);
        assert(size($('lecture-title')) >= 24 && size($('lecture-text')) >= 22 && size($('lecture-line')) >= 20, 'the letters are small' + when);
        assert(root.scrollHeight <= root.clientHeight && root.scrollWidth <= root.clientWidth, 'the screen has to be scrolled, ' + root.scrollHeight + ' of ' + root.clientHeight + when);
        const controls = [...page.querySelectorAll('button, select, input, textarea, a[href], summary, [tabindex="0"]')].filter(visible);
        assert(controls.length <= 10, 'there are ' + controls.length + ' controls' + when);
        if (at === 0) assert(key(page.body, 'ArrowRight') && key(page.body, 'PageUp') && key(page.body, ' ') && key(page.body, 'Backspace'), 'a key is not taken' + when);
        assert(key(page.body, 'PageDown'), 'Page down is not taken' + when);
        count++;
      }
    }
    assert(count === lessons.reduce((sum, lesson) => sum + 1 + lesson.moments.length + (lesson.right ? 1 + lesson.right.moments.length : 0), 0) && count > 110, count + ' screens were seen');
    assert($('lecture-next').disabled, 'the last screen has a next one');
    key(page.body, 'b');
    assert(page.body.classList.contains('blank') && key(page.body, 'PageDown') && !page.body.classList.contains('blank'), 'b does not blank the screen');
    key(page.body, 'Home');
    await wait(300);
    assert(view.location.hash === '#lecture=full_early&screen=1', 'the address is ' + view.location.hash);
    await follow(view, '#lecture=three&screen=5');
    assert(/marks node 1 done/.test($('lecture-text').textContent), 'the address leads to ' + $('lecture-text').textContent);
    await follow(view, '#lecture=lone&screen=1');
    $('lecture-text').querySelector('.term').dispatchEvent(new view.MouseEvent('mouseover', { bubbles: true }));
    assert(!$('tip').hidden && key(page.body, 'PageDown') && $('tip').hidden, 'the explanation of a word stays on the next screen');
    $('lecture-lesson').value = 'take';
    $('lecture-lesson').dispatchEvent(new view.Event('change'));
    assert($('lecture-title').textContent === 'A take', 'the list of lessons leads to ' + $('lecture-title').textContent);
    // the list of lessons keeps the keys that it uses, and not those of a clicker
    assert(!key($('lecture-lesson'), 'ArrowDown') && !key($('lecture-lesson'), 'b') && key($('lecture-lesson'), 'PageDown') && key($('lecture-lesson'), 'PageUp'), 'the list of lessons has the wrong keys');
    assert($('lecture-title').textContent === 'A take' && $('lecture-count').textContent === 'screen 1 of 6', 'Page down in the list of lessons leads to ' + $('lecture-title').textContent);
    // a button that was clicked doesn't take the space of a clicker
    $('lecture-next').focus();
    $('lecture-next').dispatchEvent(new view.MouseEvent('click', { bubbles: true, detail: 1 }));
    assert(page.activeElement !== $('lecture-next') && $('lecture-count').textContent === 'screen 2 of 6', 'a button that was clicked keeps the focus');
    assert(key(page.body, 'Escape') && !visible($('lecture')) && visible($('stage')) && whereOf($) === 35, 'Escape leads to ' + $('where').textContent);
    $('to-lecture').click();
    assert($('lecture-count').textContent === 'screen 2 of 6', 'the lecture begins at ' + $('lecture-count').textContent);
    return true;
  },

  // On a projector of this size each screen of each lecture is whole: nothing scrolls.
  fits({ $, page, view, job }) {
    const root = page.documentElement, size = element => parseFloat(view.getComputedStyle(element).fontSize);
    page.querySelector('#choose a[data-id=lone]').click();
    key(page.body, 'l');
    for (let count = 1; ; count++) {
      const when = ' at ' + $('lecture-count').textContent + ' of ' + $('lecture-lesson').value;
      assert(root.scrollHeight <= root.clientHeight && root.scrollWidth <= root.clientWidth, 'the screen has to be scrolled, ' + root.scrollHeight + ' of ' + root.clientHeight + when);
      for (const strip of $('lecture-sides').querySelectorAll('.strip')) {
        assert(strip.scrollWidth <= strip.clientWidth + 1, 'a row of nodes is wider than its room' + when);
        assert(size(strip.firstChild) >= Math.max(12.5, job.width / 150), 'the nodes have letters of ' + size(strip.firstChild) + when);
      }
      assert(size($('lecture-text')) >= Math.max(20, job.width / 60), 'the sentence has letters of ' + size($('lecture-text')) + when);
      if ($('lecture-next').disabled) { assert(count > 110, count + ' screens were seen'); return true; }
      key(page.body, 'PageDown');
    }
  },

  // Each exercise: its hint, a solution by keys, the shortest one by its button, and its state in the address.
  async exercises({ $, page, view, wait }) {
    const exercises = JSON.parse($('exercises').textContent), rowOf = name => [...$('caller').options].findIndex(option => option.text === name);
    for (const exercise of exercises) {
      page.querySelector('#choose a[data-of=exercise][data-id=' + exercise.id + ']').click();
      assert(textOf($('lesson-title')) === 'Exercise: ' + exercise.title && visible($('task')) && !visible($('task-hint')), 'the exercise is ' + textOf($('lesson-title')));
      $('hint-button').click();
      same(textOf($('task-hint')), 'Hint: ' + bare(exercise.hint), 'the hint');
      const from = whereOf($);
      for (const [name, count] of exercise.solution) {
        for (let k = 0; k < count; k++) {
          assert(textOf($('task-state')) === 'Not solved yet.', exercise.id + ' is solved early: ' + textOf($('task-state')));
          assert(key(page.body, String(rowOf(name) + 1)), 'the key of ' + name + ' is not taken');
        }
      }
      const steps = exercise.solution.reduce((sum, [, count]) => sum + count, 0), text = exercise.solution.map(one => one.join('.')).join('-');
      assert(textOf($('task-state')).startsWith('Solved at event ' + (from + steps) + ':') && textOf($('task-length')).startsWith('Your schedule has ' + steps + ' steps.'), exercise.id + ' says ' + textOf($('task')));
      await wait(250);
      const address = '#exercise=' + exercise.id + '&steps=' + text + '&event=' + (from + steps);
      same(view.location.hash, address, 'the address');
      assert(textOf($('task-why')) === 'Why: ' + bare(exercise.why) && visible($('next-exercise')) === (exercise !== exercises.at(-1)), exercise.id + ' ends with ' + textOf($('task')));
      $('again').click();
      assert(whereOf($) === from && textOf($('task-state')) === 'Not solved yet.', 'start again leads to ' + $('where').textContent);
      await follow(view, '');
      await follow(view, address);
      assert(whereOf($) === from + steps && /^Solved/.test(textOf($('task-state'))), 'the address leads to ' + $('where').textContent + ', ' + textOf($('task-state')));
      $('again').click();
      $('solve').click();
      key($('player'), 'End');
      assert(whereOf($) === from + steps && /^Solved/.test(textOf($('task-state'))), 'the solution leads to ' + $('where').textContent);
    }
    // the steps of a pass until its call returns or it waits: s1 enters alone and returns, and r1 then takes
    page.querySelector('#choose a[data-of=exercise][data-id=empty]').click();
    assert(key(page.body, '!', { shiftKey: true, code: 'Digit1' }) && whereOf($) === 28 && /The call returns/.test($('event').textContent), 'shift and 1 lead to ' + textOf($('event')));
    $('names').querySelector('.leap[data-row="1"]').click();
    assert(/The call returns: got 7 as item 0/.test($('event').textContent), 'the button leads to ' + textOf($('event')));
    page.querySelector('#choose a[data-id=three]').click();
    key($('player'), 'Home');
    for (const digit of ['1', '1', '1']) key(page.body, digit);
    key(page.body, '@', { shiftKey: true, code: 'Digit2' });
    assert(/waits/.test(textOf($('names').querySelectorAll('.step')[1])) && whereOf($) === 10, 's2 goes to ' + $('where').textContent);
    return true;
  },

  // At this size nothing scrolls sideways, what has the focus is not covered, and the explanation of a word is on the screen and
  // beside that word.
  covered({ $, page, view, job }) {
    const root = page.documentElement, is_narrow = job.width <= 900;
    // all that a rule of the page lets scroll
    const scrolls = [...page.styleSheets].flatMap(sheet => [...sheet.cssRules]).filter(rule => rule.style && /auto|scroll/.test(rule.style.overflowX)).map(rule => rule.selectorText).join();
    assert(/\.strip/.test(scrolls) && /#lanes/.test(scrolls), 'what scrolls is ' + scrolls);
    const isWhole = when => {
      assert(page.scrollingElement.scrollWidth <= root.clientWidth, 'the page is ' + page.scrollingElement.scrollWidth + ' wide on a screen of ' + root.clientWidth + when());
      if (!is_narrow) return;
      for (const element of page.querySelectorAll(scrolls)) {
        assert(element.scrollWidth <= element.clientWidth + 1, (element.getAttribute('aria-label') || element.id || element.className) + ' scrolls sideways, ' + element.scrollWidth + ' in ' + element.clientWidth + when());
      }
    };
    const isBeside = term => {
      if (!visible(term)) return;
      term.scrollIntoView({ block: 'nearest' });
      term.focus();
      const tip = $('tip').getBoundingClientRect();
      assert(tip.left >= 0 && tip.right <= root.clientWidth && tip.top >= 0 && tip.bottom <= root.clientHeight, 'the explanation of ' + term.textContent + ' is cut');
      assert([...term.getClientRects()].every(word => word.right <= tip.left || word.left >= tip.right || word.bottom <= tip.top + 1 || word.top >= tip.bottom - 1), 'the explanation covers ' + term.textContent);
      assert(page.elementFromPoint((tip.left + tip.right) / 2, (tip.top + tip.bottom) / 2) === $('tip'), 'the explanation of ' + term.textContent + ' is covered');
      term.blur();
    };
    for (const open of [() => {}, () => page.querySelector('#choose a[data-id=three]').click(), () => page.querySelector('#choose a[data-id=marked_early]').click(), () => page.querySelector('#choose a[data-of=exercise]').click(),
      () => page.querySelector('#choose a[data-id=bodies_of_words]').click()]) {
      open();
      key($('player'), 'End');
      const at = Number($('slider').max);
      for (let part = 0; part <= 4; part++) {
        $('slider').value = Math.round(at * part / 4);
        $('slider').dispatchEvent(new view.Event('input'));
        isWhole(() => ', at ' + textOf($('lesson-title')) + ', event ' + $('slider').value);
      }
      page.querySelectorAll('.term').forEach(isBeside);
      for (const element of page.querySelectorAll('button, select, input, textarea, a[href], summary, [tabindex="0"]')) {
        if (!visible(element) || !element.checkVisibility() || element.closest('.skip')) continue;
        element.scrollIntoView({ block: 'nearest' });
        element.focus();
        const { left, right, top } = element.getBoundingClientRect(), x = Math.max(2, Math.min((left + right) / 2, root.clientWidth - 2));
        const over = page.elementFromPoint(x, Math.min(top + 8, root.clientHeight - 2));
        assert(over && (element.contains(over) || over.contains(element) || over.closest('label') && over.closest('label').contains(element)), (element.id || textOf(element).slice(0, 40)) + ' is covered by ' + (over ? over.id || over.outerHTML.slice(0, 80) : 'nothing') + ' at ' + textOf($('lesson-title')));
      }
    }
    // the lecture scrolls down if it has to, and not sideways
    page.querySelector('#choose a[data-id=full_early]').click();
    key(page.body, 'l');
    for (let k = 0; k < 12; k++) {
      isWhole(() => ', at screen ' + (k + 1) + ' of the lecture');
      $('lecture').querySelectorAll('.term').forEach(isBeside);
      key(page.body, 'PageDown');
    }
    return true;
  },

  // Nodes move from state to state, unless the reader's system asks for less motion.
  async motion({ $, page, view, job, wait }) {
    assert(view.matchMedia('(prefers-reduced-motion: reduce)').matches === job.still, 'motion is not what was asked for');
    page.querySelector('#choose a[data-id=three]').click();
    let moved = 0, travelled = 0;
    for (const lecture of [false, true]) {
      if (lecture) key(page.body, 'l');
      for (let k = 0; k < 8; k++) {
        key(page.body, lecture ? 'PageDown' : 'm');
        moved += page.getAnimations().filter(one => one.effect.getKeyframes().some(frame => /translate/.test(frame.transform || ''))).length;
        travelled += page.querySelectorAll('.traveller').length;
      }
    }
    assert(job.still ? page.getAnimations().length === 0 : moved >= 4 && travelled >= 3, moved + ' nodes moved, and ' + travelled + ' items');
    await wait(1500);
    assert(page.getAnimations().length === 0, 'a motion does not end');
    // In no frame of a motion has the page a scroll bar, nor a row of nodes one that it doesn't have at rest: also from a screen
    // of one picture to one of two, and back.
    const root = page.documentElement;
    const barred = () => [root.scrollHeight > root.clientHeight || view.innerHeight > root.clientHeight,
      ...[...page.querySelectorAll('#lecture .strip, #lecture .list')].map(row => row.offsetHeight > row.clientHeight || row.offsetWidth > row.clientWidth)];
    for (const [address, screens] of [['#lecture=lone&screen=1', 12], ['#lecture=one_group&screen=4', 4]]) {
      await follow(view, address);
      for (let screen = 0, frames = 0; screen < screens || !frames && !job.still; screen++) {
        key(page.body, 'PageDown');
        const seen = [];
        do { await new Promise(view.requestAnimationFrame); seen.push(barred()); } while (page.getAnimations().length);
        frames += seen.length;
        const rest = barred();
        assert(!rest[0], 'the screen has to be scrolled, at ' + textOf($('lecture-count')));
        for (const frame of seen) assert(frame.every((bar, k) => !bar || rest[k]), 'something has a scroll bar in motion, at ' + textOf($('lecture-count')));
      }
    }
    return true;
  },

  // The adversary finds a law that a random schedule of a broken queue breaks, and a schedule none is shorter than.
  async adversary({ $, page, wait }) {
    assert(!visible($('adversary')), 'there is an adversary of the right queue');
    page.querySelector('#choose a[data-id=freed_dummy]').click();
    assert(visible($('adversary')), 'there is no adversary');
    $('search').click();
    for (let k = 0; k < 2000 && !/no schedule that breaks a law is shorter/.test(textOf($('search-state'))); k++) await wait(100);
    same([textOf($('lesson-title')), textOf($('search-state')).replace(/had \d+ steps/, 'had N steps')],
      ['A shortest schedule that breaks a law', 'The first random schedule that broke a law had N steps, and this one has 58: no schedule that breaks a law is shorter.'], 'the search');
    assert(whereOf($) === 58 && /^Broken: /.test($('breaks').textContent), 'it leads to ' + $('where').textContent + ': ' + $('breaks').textContent);
    return true;
  },

  // The exercises on paper: each with its text, and the hints behind them.
  async paper({ $, page, view }) {
    await follow(view, '#handout');
    const exercises = JSON.parse($('exercises').textContent), cards = [...$('handout').querySelectorAll('article')];
    assert(visible($('handout')) && !visible($('stage')) && cards.length === exercises.length + 1, 'the handout has ' + cards.length + ' parts');
    exercises.forEach(({ title, text, hint }, k) => assert(textOf(cards[k]).startsWith((k + 1) + '. ' + title + bare(text)) && textOf(cards.at(-1)).includes(bare(hint)), 'the handout says ' + textOf(cards[k])));
    await follow(view, '');
    return true;
  },

  // All over the page, as a site serves it: the harness looks whether it asks for anything else.
  async served({ $, page, wait }) {
    for (const link of page.querySelectorAll('#choose a[data-id]')) link.click();
    key(page.body, 'l');
    key(page.body, 'PageDown');
    key(page.body, 'Escape');
    $('export').click();
    await wait(300);
    for (const link of page.querySelectorAll('a[href]')) assert(/^(#|blob:)/.test(link.getAttribute('href')), 'a link leads to ' + link.href);
    return true;
  },

  // The path of docs/TEACHING.md: each step is what a teacher presses, and what the screen says then.
  async path({ $, page, view, job, wait }) {
    for (const { press, says } of job.steps) {
      for (const one of press) {
        const link = [...page.querySelectorAll('a, button')].filter(visible).find(element => textOf(element) === one);
        if (link) link.click(); else assert(key(page.activeElement || page.body, one), one + ' is no key and no button at ' + textOf($('lesson-title')));
        await wait(20);
      }
      for (const text of says) assert(textOf({ textContent: page.body.innerText }).includes(text), 'the screen does not say "' + text + '" after ' + press.join(', '));
    }
    return true;
  },

  // A queue of one's own, and plans that are pasted: driven, and exported.
  own({ $, page }) {
    const found = [], form = $('own-form').elements;
    const exported = () => { $('export').click(); found.push({ plan: $('plan').value, report: $('whole').textContent }); };
    Object.entries({ senders: 3, receivers: 2, groups: 2, capacity: 2, bound: 2, life: 50, sends: 2, words: 3, takes: 2 }).forEach(([name, value]) => { form[name].value = value; });
    $('own-form').querySelector('button').click();
    assert(/3 senders, 2 groups of 2 receivers/.test($('config').textContent), 'the queue is ' + $('config').textContent);
    for (let k = 0; k < 300; k++) key(page.body, String(1 + k * 5 % 7));
    assert(whereOf($) > 150, 'it went to ' + $('where').textContent);
    exported();
    $('import').value = '';
    $('open-plan').click();
    assert($('import-hint').textContent === '' && /1 sender, 1 receiver\./.test($('config').textContent) && / of 51$/.test($('where').textContent),
      'the example of a plan is refused: ' + $('import-hint').textContent + ', ' + $('config').textContent + ', ' + $('where').textContent);
    $('import').value = found[0].plan;
    $('open-plan').click();
    assert($('import-hint').textContent === '', 'a plan that was exported is refused: ' + $('import-hint').textContent);
    key($('player'), 'End');
    exported();
    assert(found[1].plan === found[0].plan && found[1].report === found[0].report, 'a plan that was exported and opened is another one');
    for (const [text, why] of [['{', /JSON/], ['[]', /object/], ['{"capacity":0}', /key/], [found[0].plan.replace('"capacity":2', '"capacity":4097'), /1 to 4096/], ['{"capacity":1,"bound":1,"life":1,"senders":[["clos"]],"receivers":[1],"schedule":[]}', /"close"/]]) {
      $('import').value = text;
      $('open-plan').click();
      assert(why.test($('import-hint').textContent), text + ' is refused by: ' + $('import-hint').textContent);
    }
    // a broken table for one's own queue
    Object.assign(form.table, { value: 'one_group' });
    $('own-form').querySelector('button').click();
    assert(/breaks no law yet/.test($('law').textContent), 'the broken table is not used');
    return found;
  },

  // Keys all over the page, words of the glossary, and that each step is a sentence for a screen reader.
  keys({ $, page }) {
    assert(key(page.body, 'n') && /^Stop 1 of 10/.test($('lesson-title').textContent), 'n leads to ' + $('lesson-title').textContent);
    for (let k = 2; k <= 10; k++) key(page.body, 'n');
    assert(/^Stop 10 of 10/.test($('lesson-title').textContent) && key(page.body, 'p') && /^Stop 9/.test($('lesson-title').textContent), 'p leads to ' + $('lesson-title').textContent);
    assert(key(page.body, 'm') && key(page.body, 'm') && key(page.body, 'M') && $('moments').querySelector('.here').textContent === '1', 'M does not go back');
    const terms = [...page.querySelectorAll('.term')];
    assert(terms.length > 5, 'there are ' + terms.length + ' words with an explanation');
    for (const term of terms) {
      term.focus();
      assert(!$('tip').hidden && $('tip').textContent.length > 20, term.textContent + ' has no explanation by the focus');
      same(textOf($(term.getAttribute('aria-describedby'))), $('tip').textContent, 'what a screen reader says of ' + term.textContent);
      key(term, 'Escape');
      assert($('tip').hidden, 'Escape leaves the explanation');
      term.dispatchEvent(new term.ownerDocument.defaultView.MouseEvent('mouseover', { bubbles: true }));
      assert(!$('tip').hidden, term.textContent + ' has no explanation by the pointer');
      term.blur();
    }
    for (const element of page.querySelectorAll('*')) for (const { name, value } of element.attributes) assert(!/[<>]|\[\[|\]\]/.test(value.replace(/\[\[[\d\["]/, '').replace(/\]\]/g, '')) || name === 'placeholder' && JSON.parse(value), 'an attribute has mark-up: ' + name + '=' + value.slice(0, 80));
    const event = $('event');
    assert(event.getAttribute('role') === 'status' && event.getAttribute('aria-live') === 'polite' && event.getAttribute('aria-atomic') === 'true', 'a step is not read out');
    key($('player'), 'Home');
    for (let i = 0; i < 60; i++) {
      key(page.body, 'ArrowRight');
      assert(/^[sr]\d (reads|changes|writes|swaps|adds) .*\. \(\w+\)$/.test(event.textContent), 'the sentence of a step is ' + event.textContent);
    }
    key($('player'), 'Home');
    assert(key(page.body, '2') && $('branches').options.length === 2 && whereOf($) === 1, 'the key of a pass does not step');
    for (const element of page.querySelectorAll('button, select, input, textarea, a[href], summary')) assert(element.tabIndex >= 0, 'no key reaches ' + element.outerHTML.slice(0, 80));
    assert([...page.querySelectorAll('button, select, input, textarea')].every(element => element.textContent.trim() || element.getAttribute('aria-label') || element.closest('label')), 'a control has no name');
    return true;
  },

  // A link holds the plan: the page opens it.
  async link({ $, view, job, wait }) {
    $('import').value = job.text;
    $('open-plan').click();
    key($('player'), 'End');
    $('export').click();
    const link = $('link').value, was = { event: whereOf($), plan: $('plan').value, report: $('whole').textContent };
    assert(/#plan=/.test(link), 'the link is ' + link);
    $('first').click();
    await follow(view, '');
    await follow(view, link.slice(link.indexOf('#')));
    $('texts').open = true;
    await wait(50);
    assert(whereOf($) === was.event && $('plan').value === was.plan && $('whole').textContent === was.report && $('lesson-title').textContent === 'A plan from a link', 'the link opens another run, at ' + $('where').textContent);
    return true;
  },

  // A link of docs/TEACHING.md opens a broken queue at an event that breaks a law.
  async broken({ $, view, job }) {
    await follow(view, job.address);
    assert(/&event=(\d+)/.exec(job.address)[1] === String(whereOf($)), 'the link opens ' + $('where').textContent);
    assert($('breaks').textContent, 'no law is broken at event ' + whereOf($) + ' of ' + job.address);
    return $('breaks').textContent;
  },

  // Targets have 32 pixels, and texts 12.
  sizes({ $, page, view }) {
    for (const details of page.querySelectorAll('details')) details.open = true;
    $('player').classList.add('open');
    for (const link of [null, ...page.querySelectorAll('#choose a[data-id]')]) {
      if (link) link.click();
      key($('player'), 'End');
      for (const target of page.querySelectorAll('button, select, input:not([type=checkbox]), summary, nav a, .pick')) {
        if (!visible(target)) continue;
        const { width, height } = target.getBoundingClientRect();
        assert(height >= 31.5 && width >= 31.5, (target.id || target.textContent) + ' has ' + width + ' by ' + height + ' pixels');
      }
      const walker = page.createTreeWalker(page.body, view.NodeFilter.SHOW_TEXT);
      while (walker.nextNode()) {
        const element = walker.currentNode.parentElement;
        if (!walker.currentNode.textContent.trim() || ['SCRIPT', 'NOSCRIPT', 'title'].includes(element.tagName) || !visible(element)) continue;
        const scale = element instanceof view.SVGElement ? element.getScreenCTM().a : 1;
        const size = parseFloat(view.getComputedStyle(element).fontSize) * scale;
        assert(size >= 12, element.textContent + ' has letters of ' + size + ' pixels');
      }
      assert(page.scrollingElement.scrollWidth <= page.documentElement.clientWidth, 'the page is wider than the screen, at ' + $('lesson-title').textContent);
    }
    return true;
  },

  // The acting lane, the turns, the first nodes of the list and the lit line are in view at the run, and not under the player, all
  // over the run.
  in_view({ $, page }) {
    const height = page.documentElement.clientHeight;
    const events = Number($('slider').max);
    $('stage').scrollIntoView();
    for (let part = 0; part <= 20; part++) {
      $('slider').value = Math.round(events * part / 20);
      $('slider').dispatchEvent(new Event('input'));
      if (part % 2) $('after').click();
      const bar = $('player').getBoundingClientRect().bottom;
      const parts = { chain: $('chain-1').querySelector('.box'), turns: $('turns'), lane: $('names').querySelector('.pass.moved'), 'lit line': $('program').querySelector('.lit'), 'list': $('list').querySelector('.box'), 'what holds': $('holds') };
      for (const [name, element] of Object.entries(parts)) {
        if (!element) continue;
        const { top, bottom } = element.getBoundingClientRect();
        assert(top >= bar - 1 && bottom <= height, name + ' is at ' + top + ' to ' + bottom + ' of ' + height + ', under the player to ' + bar + ', at event ' + $('slider').value);
      }
      for (const boxes of page.querySelectorAll('.boxes')) assert(new Set([...boxes.children].map(box => Math.round(box.getBoundingClientRect().bottom))).size <= 1, 'the nodes wrap at event ' + $('slider').value);
      const fresh = $('history').querySelector('tr.touch');
      if (fresh) {
        const [line, card] = [fresh, fresh.closest('.list')].map(of => of.getBoundingClientRect());
        assert(line.top >= card.top - 1 && line.bottom <= card.bottom + 1, 'the newest line of the history is out of view at event ' + $('slider').value);
      }
    }
    const names = new Set([...$('kinds').querySelectorAll('dt')].map(line => line.textContent.split(' ')[1]));
    assert(names.size === 21, 'a kind has no name');
    return true;
  },

  // The page of a plan begins with its run, and has a title of its own; that of the site begins with the text, beside which the run
  // is played. A key that moves the run shows it.
  opens({ $, page, view, job }) {
    const player = () => $('player').getBoundingClientRect();
    if (job.page) {
      assert(player().top >= 0 && player().top < 140 && !visible($('live')), 'the run begins at ' + player().top);
      assert(textOf(page.querySelector('h1')) === job.title && page.title.startsWith(job.title), 'the titles are ' + textOf(page.querySelector('h1')) + ' and ' + page.title);
      return true;
    }
    assert(player().top > view.innerHeight && $('live').getBoundingClientRect().bottom < view.innerHeight * 1.2, 'the page does not begin with its text');
    $('live-play').click();
    assert(textOf($('live-play')) === 'stop' && view.scrollY === 0, 'play leads away');
    $('live-play').click();
    assert(key(page.body, 'ArrowRight') && whereOf($) === 1 && textOf($('live-event')) && player().bottom < view.innerHeight, 'the run is not shown by a key');
    same(boxesIn($('live-picture')).length > 2, true, 'the picture beside the text');
    return true;
  },

  // On a phone eight cells are in a row, and nothing is wider than the screen.
  phone({ $, page }) {
    const width = page.documentElement.clientWidth;
    const events = Number($('slider').max);
    $('slider').value = Math.round(events / 2);
    $('slider').dispatchEvent(new Event('input'));
    const seen = [...$('cells').querySelectorAll('.cell rect')].map(rect => rect.getBoundingClientRect()).filter(of => of.left >= 0 && of.right <= width);
    const places = new Set(seen.map(of => Math.round(of.left)));
    assert(places.size >= 8, 'there are ' + places.size + ' cells in a row');
    assert(page.scrollingElement.scrollWidth <= width, 'the page is ' + page.scrollingElement.scrollWidth + ' wide on a screen of ' + width);
    return true;
  },

  // Each text has a contrast of 4.5 to its background, in this scheme.
  contrasts({ $, page, view, job }) {
    assert(view.matchMedia('(prefers-color-scheme: dark)').matches === job.dark, 'the scheme is not the one that was asked for');
    const events = Number($('slider').max);
    for (const details of page.querySelectorAll('details')) details.open = true;
    let texts = 0;
    for (let part = 0; part <= 12; part++) {
      $('slider').value = Math.round(events * part / 12);
      $('slider').dispatchEvent(new Event('input'));
      texts += contrasted(page, view, () => ' at event ' + $('slider').value);
    }
    assert(texts > 500, 'only ' + texts + ' texts were looked at');
    return true;
  },

  // The page of a judged log: its lanes, the calls that are lit, its keys, its width and its contrasts.
  judged({ $, page, view, job }) {
    assert(view.matchMedia('(prefers-color-scheme: dark)').matches === job.dark, 'the scheme is not the one that was asked for');
    assert($('verdict').textContent === job.line, 'the verdict is ' + $('verdict').textContent);
    const calls = () => [...page.querySelectorAll('.call')];
    const label = element => /^Line (\d+), thread (.*?), /.exec(element.getAttribute('aria-label'));
    const lines = kind => calls().filter(element => element.classList.contains(kind)).map(element => Number(label(element)[1])).sort((a, b) => a - b);
    const same = (found, due, what) => assert(JSON.stringify(found) === JSON.stringify(due), what + ': ' + JSON.stringify(found) + ', and not ' + JSON.stringify(due));
    for (const scale of ['order', 'clock']) {
      const input = page.querySelector('input[value=' + scale + ']');
      input.click();
      assert(input.checked, 'the scale is not chosen: ' + scale);
      same(calls().map(element => Number(label(element)[1])).sort((a, b) => a - b), job.shown, 'shown');
      same(lines('fault'), job.named, 'lit');
      same(lines('same'), job.same, 'of the same items');
      same([...$('names').querySelectorAll('div')].slice(-job.threads.length).map(name => name.textContent).sort(), job.threads, 'lanes');
      assert((page.querySelectorAll('.never').length > 0) === job.never, 'shaded moments');
      if (job.marks) same([...page.querySelectorAll('.never title, .sure title')].map(title => title.textContent), job.marks, 'shades and bars');
      assert($('why').textContent.includes(job.says), 'the text is ' + $('why').textContent);
      assert(page.documentElement.scrollWidth <= view.innerWidth, 'the page is ' + page.documentElement.scrollWidth + ' wide');
      assert(contrasted(page, view, () => ' by ' + scale) > 10, 'the page has few texts');
    }
    // The keys go through all calls, and between threads
    const told = () => $('call').textContent;
    const press = name => { const at = page.activeElement.closest('.call'); assert(at, 'no call has the focus'); return key(at, name); };
    calls()[0].focus();
    assert(press('Home'), 'Home is no key');
    const seen = new Set([told()]);
    for (let k = 1; k < calls().length; k++) { press('ArrowRight'); seen.add(told()); }
    assert(seen.size === calls().length, seen.size + ' of ' + calls().length + ' calls were reached by keys');
    const last = told();
    press('Home');
    press('End');
    assert(told() === last, 'End is not the last call');
    if (job.threads.length > 1) {
      const thread = () => / thread (.*?), /.exec(told())[1], from = thread();
      press('ArrowDown');
      if (thread() === from) press('ArrowUp');
      assert(thread() !== from, 'no key leads to another thread');
    }
    return true;
  },
};

// Does a job in a frame of its size.
const done = job => new Promise(resolve => {
  const frame = document.createElement('iframe');
  Object.assign(frame, { width: job.width, height: job.height }, job.src ? { src: job.src } : { srcdoc: job.page.replace('<head>', '<head><script>window.errors_of_the_page = []; addEventListener("error", e => errors_of_the_page.push(e.message));</script>') });
  const errors = view => view.errors_of_the_page || [];
  frame.style.border = '0';
  frame.addEventListener('load', async () => {
    const view = frame.contentWindow, page = frame.contentDocument;
    const $ = id => page.getElementById(id);
    let result;
    try {
      assert(errors(view).length === 0, 'the page has an error: ' + errors(view)[0]);
      assert(job.test === 'judged' || page.body.dataset.check === 'agrees', $('alarm') && $('alarm').textContent);
      result = await tests[job.test]({ $, player: $('player'), page, view, job, wait: ms => new Promise(go => setTimeout(go, ms)) });
      assert(errors(view).length === 0, 'the page has an error: ' + errors(view)[0]);
    } catch (error) {
      result = { error: String(error) };
    }
    frame.remove();
    resolve(result);
  }, { once: true });
  document.body.prepend(frame);
});

(async () => {
  for (const job of jobs) await fetch('/', { method: 'POST', body: JSON.stringify(await done(job)) });
})();
