// The page's machine and its texts without its pictures, by node. Prints a line of JSON for each run.
//
//     node tests/show/alone.js steps PAGE SEED STEPS WORDS ..   for each page that is named, the plan and the report after random steps,
//                                                               in bodies of at most so many words; the laws and an order of all calls hold
//     node tests/show/alone.js lessons PAGE                     of each lesson its plan, and the report of the right table; fails if a moment
//                                                               isn't the event that it names, or a broken table breaks no law or another
//     node tests/show/alone.js plans PAGE FILE ..               whether the page reads each file as a plan, and the report of its run
//     node tests/show/alone.js tells PAGE                       of each lesson and exercise, and of some random runs, by each table, all
//                                                               texts of each state; and where a broken queue parts from the right one
//     node tests/show/alone.js waits PAGE SEED RUNS             of random runs the schedule, and at each event of each pass that waits how
//                                                               many steps are ahead of it, and whose turn it is
//     node tests/show/alone.js shortest PAGE                    of each exercise the least number of steps that reaches its goal, and of
//                                                               its solution the number of steps after which it does
'use strict';
const fs = require('fs');
const path = require('path');
const vm = require('vm');

const element = (page, id) => new RegExp('<script[^>]* id="' + id + '">([^]*?)</script>').exec(page)[1];
const driveAtRandom = vm.runInThisContext('(' + fs.readFileSync(path.join(__dirname, 'hands.js'), 'utf8').replace(/^\/\/.*\n/gm, '') + ')');
const partsOf = page => vm.runInThisContext('(() => {' + element(page, 'machine') + element(page, 'telling') + '\nreturn [Machine, Telling]; })()');
const machineOf = page => partsOf(page)[0];
const assert = (holds, what) => { if (!holds) throw new Error(what); };
const say = what => console.log(JSON.stringify(what));
const TABLES = machine => ['', ...Object.keys(machine.CHANGES)];

// What holds of each run of the right table: no law is broken, and each answer of an order of all calls is that of a queue that
// does one call after another; and the plan that is exported is read again, and has the same run.
function holds(machine, run, name) {
  const broken = run.events.findIndex(e => e.breaks.length);
  assert(broken < 0, name + ' breaks a law at event ' + (broken + 1));
  const { fault } = run.order();
  assert(!fault, name + ' has an order in which ' + (fault && machine.answerText(fault.answer)) + ' is ' + (fault && fault.wanted));
  const again = machine.open(machine.planOfText(run.planText()));
  assert(again.events.length === run.now && again.reportText() === run.reportText(), name + ': the plan that is exported has another run');
}

// The texts of a state that tests/show/reads.py decides; of a box the names over it, its lines and the text of its arrow.
function textsOf(telling, run) {
  const texts = list => list.map(one => one.text), box = one => [texts(one.ends), one.lines, one.arrow ? one.arrow.text : ''];
  const chains = [...Array(run.groups + 1).keys()].map(k => telling.chain(run, k - 1)), list = telling.list(run), order = telling.order(run);
  return [telling.event(run), chains.map(one => [one.head, one.boxes.map(box), one.done.map(box), texts(one.spare)]),
    [list.rows.map(row => row.map(box)), list.free.map(box), list.words.map(one => [one.name, one.text])],
    [...Array(run.rows).keys()].map(row => [run.passName(row), telling.pass(run, row).text]),
    [order.said, order.rows.map(Object.values)], run.reportText()];
}

// Random numbers by Park and Miller, and a random plan: small, so that its passes meet.
const dice = state => n => { state = state * 48271 % 2147483647; return state % n; };
function randomPlan(random) {
  const some = (least, most) => least + random(most - least + 1), groups = some(1, 2);
  const calls = () => Array.from({ length: some(1, 5) }, () => random(10) ? Array.from({ length: some(1, 4) }, () => random(100)) : 'close');
  const senders = Array.from({ length: some(1, 4) }, calls);
  return { version: 2, groups, capacity: some(1, 3), bound: [1, 1, 2, 3, 8][random(5)], life: [2, 5, 100][random(3)], senders, receivers: Array.from({ length: groups * some(1, 3) }).map(() => some(1, 5)), schedule: [] };
}

// Makes random steps of passes, and returns the names of these passes. A pass goes on for a while, or not.
function stepAtRandom(run, random, most, each) {
  const steps = [], stay = [0, 5, 9][random(3)];
  let row = random(run.rows);
  for (let n = 0; n < most; n++) {
    if (random(10) >= stay) row = random(run.rows);
    if (!run.step(row)) continue;
    steps.push(run.passName(row));
    each();
  }
  return steps;
}

const TASKS = {
  steps(words) {
    for (let at = 0; at + 3 < words.length; at += 4) {
      const page = fs.readFileSync(words[at], 'utf8');
      const [seed, steps, most_words] = words.slice(at + 1, at + 4).map(Number);
      const machine = machineOf(page);
      const run = machine.open(machine.planOfRun(element(page, 'run')), '', element(page, 'report'));
      assert(!run.faults.length, run.faults[0]);
      driveAtRandom({
        rows: run.rows,
        senders: run.senders,
        step: row => run.step(row),
        back: () => run.goTo(run.now - 1),
        add: (row, words) => assert(!run.add(row, words), 'a call is refused'),
      }, seed, steps, most_words);
      run.goTo(run.events.length);
      holds(machine, run, words[at]);
      say({ events: run.now, plan: run.planText(), report: run.reportText() });
    }
  },

  lessons([name]) {
    const page = fs.readFileSync(name, 'utf8'), [machine, telling] = partsOf(page);
    const lessons = telling.lessons(element(page, 'lessons'));
    assert(new Set(lessons.map(lesson => lesson.id)).size === lessons.length, 'two lessons have one name');
    for (const lesson of lessons) {
      const plan = () => machine.planOfText(JSON.stringify(lesson.plan));
      const right = machine.open(plan());
      holds(machine, right, lesson.id);
      const shown = lesson.table ? machine.open(plan(), lesson.table) : right;
      assert(!shown.faults.length, lesson.id + ': ' + shown.faults[0]);
      for (const [run, moments] of [[shown, lesson.moments], ...(lesson.table ? [[right, lesson.right.moments]] : [])]) moments.forEach(([event, kind], k) => {
        assert(k === 0 || event > moments[k - 1][0], lesson.id + ': moment ' + (k + 1) + ' is not after the one before');
        assert(run.events[event - 1] && run.events[event - 1].kind === kind, lesson.id + ': event ' + event + ' is no ' + kind);
      });
      if (lesson.table) {
        const first = shown.events.find(e => e.breaks.length);
        assert(first && first.breaks[0] === lesson.breaks && machine.LAWS[lesson.breaks], lesson.id + ' breaks first ' + (first && first.breaks));
      }
      say({ id: lesson.id, kind: lesson.kind, given: lesson.plan, plan: JSON.stringify(lesson.plan), report: right.reportText() });
    }
    assert(Object.keys(machine.CHANGES).every(table => lessons.some(lesson => lesson.table === table)), 'a broken table has no lesson');
  },

  plans([name, ...files]) {
    const machine = machineOf(fs.readFileSync(name, 'utf8'));
    for (const file of files) {
      let run = null, refused = '';
      try {
        run = machine.open(machine.planOfText(new TextDecoder('utf-8', { fatal: true, ignoreBOM: true }).decode(fs.readFileSync(file))));
      } catch (fault) {
        refused = fault.message;
      }
      say({ file, refused, is_long: !!run && run.faults.length > 0, report: run ? run.reportText() : '' });
    }
  },

  tells([name]) {
    const page = fs.readFileSync(name, 'utf8'), [machine, telling] = partsOf(page);
    const opened = (plan, table) => machine.open(machine.planOfText(JSON.stringify(plan)), table);
    const tell = (run, of) => {
      const states = [...Array(run.events.length + 1).keys()].map(n => { run.goTo(n); return textsOf(telling, run); });
      say({ ...of, table: run.variant, plan: run.planText(), states });
    };
    for (const { id, plan, table: own } of telling.lessons(element(page, 'lessons'))) for (const table of TABLES(machine)) {
      const run = opened(plan, table);
      tell(run, { id, parting: table && table === own ? telling.parting(machine.beside(run, '')) : '' });
    }
    TABLES(machine).forEach((table, k) => [1, 2, 3, 4].forEach(seed => {
      const random = dice(100 * k + seed), run = opened(randomPlan(random), table);
      stepAtRandom(run, random, 200, () => {});
      tell(run, { id: 'random ' + seed });
    }));
    for (const { id, plan, table, solution } of JSON.parse(element(page, 'exercises'))) {
      const run = opened(plan, table || '');
      telling.makeSteps(run, solution);
      tell(run, { id: 'exercise ' + id });
    }
  },

  waits([name, seed, runs]) {
    const machine = machineOf(fs.readFileSync(name, 'utf8')), random = dice(Number(seed));
    for (let k = 0; k < Number(runs); k++) {
      const plan = JSON.stringify(randomPlan(random)), run = machine.open(machine.planOfText(plan)), waits = [];
      const steps = stepAtRandom(run, random, 700, () => waits.push([...Array(run.rows).keys()].map(row => [run.passName(row), run.waitOf(row)]).filter(([, wait]) => wait).map(([pass, wait]) => [pass, wait.ahead, wait.turns.map(run.passName)])));
      say({ plan, steps, waits });
    }
  },

  shortest([name]) {
    const page = fs.readFileSync(name, 'utf8'), [machine, telling] = partsOf(page);
    for (const exercise of JSON.parse(element(page, 'exercises'))) {
      const opened = () => machine.open(machine.planOfText(JSON.stringify(exercise.plan)), exercise.table || '');
      const run = opened(), from = run.now;
      telling.makeSteps(run, exercise.solution);
      say({ id: exercise.id, least: leastSteps(machine, opened(), exercise.goal), solved: machine.reached(run, exercise.goal) - from, steps: exercise.solution.reduce((sum, [, count]) => sum + count, 0) });
    }
  },
};

// The least number of steps after which a run reaches a goal, by the search of the page.
function leastSteps(machine, run, goal) {
  const answers = e => e.answer && e.answer[0].is;
  const isGoal = e => goal.breaks ? e.breaks.some(law => goal.breaks.includes(law))
    : answers(e) === goal.returns && (goal.returns === 'Empty' ? run.got[e.x] < run.accepted.length : run.accepted.length - Math.min(...run.got) < run.capacity);
  const search = machine.shortest(run, isGoal);
  for (;;) {
    const { done, value } = search.next();
    if (done) return value ? value.length : Infinity;
  }
}

TASKS[process.argv[2]](process.argv.slice(3));
