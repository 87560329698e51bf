'use strict';
// The page: it shows a path in a graph at one moment, and adds the event that its reader chooses.

const $ = id => document.getElementById(id);

// what a reader can start with: each graph of the page by its name, and the schedules that can be looked at
const graphs = {}, examples = [];
for (const element of document.querySelectorAll('[data-start]')) {
  const { start, kind, title } = element.dataset, text = element.textContent.trim();
  if (kind === 'example') examples.push({ title, schedule: text, graph: graphs.whole });
  else {
    const [schedule, packed] = kind === 'path' ? /^([^]*?)\n\n([^]*)$/.exec(text).slice(1) : ['', text];
    const graph = { ...readGraph(packed), name: start, kind };
    graphs[start] = graph;
    if (kind === 'whole') graphs.whole = graph;
    if (kind === 'path') examples.push({ title: title + ' (to look at)', schedule, graph });
    else if (kind !== 'whole') examples.push({ title, schedule: 'seats ' + graph.seats, graph });
  }
}
const sentences = readSentences($('sentences').textContent);
const tasks = readTasks($('tasks').textContent).map(task => ({ ...task, graph: graphs[task.graph] }))
  .filter(({ graph, schedule }) => graph && follow(graph, `seats ${graph.seats}\n${schedule}`).fault === 0);
// what is shown: a path in a graph, the moment in it, the task if one was started, how long the path was then, and which
// tasks their reader has finished
const view = { graph: graphs.whole, path: [], at: 0, task: null, given: 0, finished: new Set() };

// ---- drawing

// the list of tasks, where there is nothing to draw yet
function tasksText() {
  const button = i => `<button data-task="${i}" aria-label="try task ${i + 1}">try</button>`;
  const tick = task => view.finished.has(task) ? '<b class="done" title="done">✓</b> ' : '';
  const items = tasks.map((task, i) => `<li>${tick(task)}${escape(task.text)} ${button(i)}</li>`).join('');
  return `<div class="tasks"><h2>New here? Tasks of a minute each</h2><ol>${items}</ol></div>`;
}

// whether a mutex with a fault is shown after its start: then it is started over first
const canStartOver = () => view.graph.kind === 'wrong' && view.path.length > (view.task ? view.given : 0);
const isAtTasks = () => view.path.length === 0 && view.task === null;

// what to do first, or how to come back to the tasks
function showFirst() {
  $('first').innerHTML = isAtTasks() ? 'To begin, press <b>try</b> at task 1 below, and then the blue buttons of the seats.'
    : `To come back to the tasks, press <b>start over</b>${canStartOver() ? ' twice' : ''}.`;
}

// the lanes and their legend end where the window ends, or below it, if that would leave fewer pixels than this
const LEAST_HEIGHT = 200;

function fitLanes(lanes) {
  const below = document.querySelector('.legend').offsetHeight + 8;
  const top = lanes.getBoundingClientRect().top + scrollY;
  lanes.style.maxHeight = Math.max(LEAST_HEIGHT, innerHeight - top - below) + 'px';
}

// scrolls the window, if the rows of the present moment are not in it
function bringIntoSight() {
  const rows = [...document.querySelectorAll('#lanes .now')].map(row => row.getBoundingClientRect());
  if (rows.length === 0) return;
  const top = Math.min(...rows.map(row => row.top)), bottom = Math.max(...rows.map(row => row.bottom));
  if (bottom > innerHeight) scrollBy(0, bottom - innerHeight + 8);
  else if (top < 0) scrollBy(0, top - 60);
}

function showLanes() {
  const lanes = $('lanes');
  fitLanes(lanes);
  lanes.setAttribute('aria-label', isAtTasks() ? 'tasks' : 'what has happened: the trace says it in text');
  if (isAtTasks()) {
    lanes.innerHTML = tasksText();
    lanes.scrollTop = 0;
    return;
  }
  const { heads, body, aside, now, left, right } = drawLanes(view, lanes.clientWidth);
  lanes.innerHTML = `<div class="heads">${heads}</div><div class="rows">${body}</div>`;
  const isAbove = now < lanes.scrollTop + 40, isBelow = now > lanes.scrollTop + lanes.clientHeight - 60;
  if (isAbove || isBelow) lanes.scrollTop = Math.max(0, now - 120);
  // the lane of the last event is in sight, or its beginning, where all of it has no room
  const seen = lanes.clientWidth - aside;
  if (left < lanes.scrollLeft || right > lanes.scrollLeft + seen) lanes.scrollLeft = Math.max(0, Math.min(left, right - seen));
}

// in one column the story stands between the seats and the lanes, for the eye and for the key Tab
function placeStory() {
  const isOneColumn = matchMedia('(max-width: 1400px)').matches, next = $(isOneColumn ? 'lanes' : 'terms');
  if (next.previousElementSibling !== $('story')) next.before($('story'));
}

function showStory() {
  placeStory();
  if (view.task && taskStands(view) === 'done') view.finished.add(view.task);
  $('story').innerHTML = storyTexts(view, sentences, tasks).map(text => `<p>${text}</p>`).join('');
}

function showTexts() {
  const shown = view.path.slice(0, view.at), schedule = scheduleOf(view.graph, shown);
  if (document.activeElement !== $('schedule')) $('schedule').value = schedule;
  $('tracename').innerHTML = view.graph.kind === 'wrong' ? 'Its trace' : 'What <code>lfm replay</code> prints for it';
  $('trace').textContent = traceOf(view.graph, shown);
  $('trace').scrollTop = $('trace').scrollHeight;
  writeAddress(schedule.trim().split('\n'));
}

// writes the address of what is shown, once nothing new was chosen for this time: browsers refuse to change an address more
// than some ten times a second, and a key that is held down chooses more often
const ADDRESS_PAUSE = 300;
let addressTimer = 0;

function writeAddress([first, ...lines]) {
  const start = view.graph === graphs.whole ? first : view.graph.name;
  const address = '#' + encodeURIComponent([start, ...lines].join(';'));
  clearTimeout(addressTimer);
  addressTimer = setTimeout(() => history.replaceState(null, '', address), ADDRESS_PAUSE);
}

// the slider and its buttons. A button that cannot be pressed any more gives the focus to the other one
function showTime() {
  const focus = document.activeElement;
  $('slider').max = view.path.length;
  $('slider').value = view.at;
  $('slider').setAttribute('aria-valuetext', `event ${view.at} of ${view.path.length}`);
  $('moment').textContent = `${view.at} of ${view.path.length}`;
  $('back').disabled = view.at === 0;
  $('on').disabled = view.at === view.path.length;
  if (focus === $('back') && focus.disabled) $('on').focus();
  if (focus === $('on') && focus.disabled) $('back').focus();
}

// draws all anew. The button that was pressed is drawn anew too, so the focus goes to it, or to another one of its seat
function show() {
  const { seat, act } = document.activeElement.closest('button[data-seat]')?.dataset ?? {};
  showFirst();
  $('seats').className = view.graph.seats > 3 ? 'seats many' : 'seats';
  $('seats').innerHTML = drawSeats(view, sentences);
  showStory();
  showTime();
  showLanes();
  $('memory').innerHTML = drawMemory(view);
  showTexts();
  const find = what => document.querySelector(`button[data-seat${what}`);
  if (seat) (find(`="${seat}"][data-act="${act}"]`) ?? find(`="${seat}"]`) ?? find(']') ?? $('lanes')).focus();
}

// ---- what the reader does

function goTo(moment) {
  view.at = Math.max(0, Math.min(view.path.length, moment));
  show();
  bringIntoSight();
}

// the seat makes one event, or all steps of its call. What came after this moment is dropped, and what was said of it
function choose(seat, act) {
  view.path.length = view.at;
  extend(view.graph, view.path, seat, act);
  $('fault').textContent = '';
  goTo(view.path.length);
}

function load(graph, schedule, moment) {
  const { path, fault } = follow(graph, schedule);
  Object.assign(view, { graph, path });
  $('fault').textContent = fault ? `line ${fault} of the schedule can't come here, or leads to a state that this page doesn't hold` : '';
  goTo(moment ?? path.length);
}

function startAnew() {
  if (!canStartOver()) startFree();
  else if (view.task) startTask(tasks.indexOf(view.task));
  else load(view.graph, 'seats ' + view.graph.seats);
}

function startFree() {
  view.task = null;
  $('examples').value = '';
  load(graphs.whole, 'seats ' + graphs.whole.seats);
}

function endTask() {
  view.task = null;
  if ($('examples').value === 'task') $('examples').value = '';
}

// shows an edited schedule. One that does not go on from the start of the task ends the task
function editSchedule() {
  const graph = view.graph.kind === 'path' ? graphs.whole : view.graph, schedule = $('schedule').value;
  if (!goesOn(view.path.slice(0, view.given), follow(graph, schedule).path)) endTask();
  load(graph, schedule);
}

function startTask(number) {
  view.task = tasks[number];
  $('examples').value = 'task';
  const { graph, schedule } = view.task, { path } = follow(graph, `seats ${graph.seats}\n${schedule}`);
  Object.assign(view, { graph, path, given: path.length });
  $('fault').textContent = '';
  goTo(path.length);
  $('story').focus();
}

function startExample(number) {
  const example = examples[number];
  view.task = null;
  load(example.graph, example.schedule, 0);
}

// adds the shortest way from here to an event that is wanted, as a path to be walked: it is shown, and not done by its reader
function showWay(isWanted) {
  view.path.length = view.at;
  const events = wayTo(view.graph, endOf(view.path), isWanted);
  $('fault').textContent = events.length ? '' : 'no way leads there from here';
  for (const { seat, act } of events) extend(view.graph, view.path, seat, act);
  view.path.slice(view.at).forEach(event => { event.isShown = true; });
  goTo(view.at);
}

// a way to the end of the present task, to be walked
function showTheTask() {
  const { graph, task } = view;
  showWay(event => isGoal(graph, task.goal, event));
  $('story').focus();
}

// the part of the address after #. A part that is not well encoded names nothing
function addressPart() {
  try {
    return decodeURIComponent(location.hash.slice(1));
  } catch {
    return '';
  }
}

// opens what the address names: a graph or a number of seats, and the lines of a schedule. Without that the page may have a
// path of its own to begin with
function openAddress() {
  const [first, ...lines] = addressPart().split(';');
  const graph = graphs[first] ?? graphs.whole, opened = examples.findIndex(({ graph }) => graph.name === 'opened');
  view.task = null;
  $('examples').value = '';
  if (first === '' && opened >= 0) return startExample(opened);
  load(graph, [first.startsWith('seats') ? first : 'seats ' + graph.seats, ...lines].join('\n'));
}

// ---- keys and the mouse

// the button of a seat that a key with its number presses: with shift the one to the end of the call
function buttonOfKey(event) {
  const digit = /^Digit([1-9])$/.exec(event.code);
  const buttons = digit ? [...document.querySelectorAll(`button[data-seat="${digit[1]}"]`)] : [];
  return buttons.find(button => !event.shiftKey || button.dataset.act === '*');
}

const KEYS = {
  ArrowLeft: () => goTo(view.at - 1),
  ArrowRight: () => goTo(view.at + 1),
  Home: () => goTo(0),
  End: () => goTo(view.path.length),
  0: startAnew,
  n: () => $('following')?.click(),
};

// whether the last key in a list was one that leads to its next item
let isWalkingList = false;

function pressKey(event) {
  if (event.ctrlKey || event.metaKey || event.altKey || event.target.tagName === 'TEXTAREA') return;
  isWalkingList = event.target.tagName === 'SELECT' && /^Arrow(Up|Down)$/.test(event.key);
  // in a list only the keys that lead along the path and those with a number, since others choose an item of it
  if (event.target.tagName === 'SELECT' && !/^(Arrow(Left|Right)|Digit\d)$/.test(event.code)) return;
  const button = buttonOfKey(event);
  if (button) choose(Number(button.dataset.seat), button.dataset.act);
  else if (event.key in KEYS) KEYS[event.key]();
  else return;
  event.preventDefault();
}

const isStep = act => act === '.' || act === '*';

function click(event) {
  const find = selector => event.target.closest(selector)?.dataset;
  const button = find('button[data-act]'), task = find('[data-task]'), row = find('[data-moment]');
  // the second click of two may be meant for a step that the first one has made: it begins no call
  if (button && (event.detail < 2 || isStep(button.act))) choose(Number(button.seat), button.act);
  else if (task) startTask(Number(task.task));
  else if (row) goTo(Number(row.moment));
  else if (event.target.closest('#hint')) showTheTask();
}

function copySchedule() {
  $('schedule').focus();
  $('schedule').select();
  navigator.clipboard?.writeText($('schedule').value).catch(() => document.execCommand('copy'));
}

// a choice in a list, after which the keys belong to the page again; but who walks through a list by keys stays in it
function listenToList(list, act) {
  list.onpointerdown = () => { isWalkingList = false; };
  list.onchange = () => {
    const isWalked = isWalkingList;
    act(list.value);
    if (!isWalked) $('story').focus({ preventScroll: true });
  };
}

const option = (value, text) => `<option value="${value}">${escape(text)}</option>`;
const options = (first, names) => option('', first) + names.map((name, i) => option(i, name)).join('');

function listen() {
  addEventListener('resize', show);
  addEventListener('hashchange', openAddress);
  document.addEventListener('click', click);
  document.addEventListener('keydown', pressKey);
  $('back').onclick = KEYS.ArrowLeft;
  $('on').onclick = KEYS.ArrowRight;
  $('anew').onclick = startAnew;
  $('slider').oninput = () => goTo(Number($('slider').value));
  $('schedule').onchange = editSchedule;
  $('copy').onclick = copySchedule;
  // a task is not chosen here: the list shows that one was started
  $('examples').innerHTML = options('a free mutex', examples.map(({ title }, i) => `${i + 1}. ${title}`))
    + '<option value="task" hidden>the task shown here</option>';
  listenToList($('examples'), value => value === '' ? startFree() : startExample(Number(value)));
  const ways = WAYS.filter(([, isWanted]) => hasEvent(graphs.whole, isWanted));
  $('ways').innerHTML = options('the shortest way to …', ways.map(([name]) => name));
  listenToList($('ways'), value => {
    if (value !== '') showWay(ways[value][1]);
  });
  // the item stays until then, so that a reader by keys can go from one to the next
  $('ways').onblur = () => { $('ways').value = ''; };
}

listen();
openAddress();
