'use strict';
// The story of the page, as text in HTML: how the task stands, what has just happened, and who has the responsibility.
// Nothing here touches the document, so node runs this file after seats.js.

// how the task stands at this moment, by the first event after its start that ends it: open if there is none, shown if the
// page has made that event, and done if the reader has
function taskStands({ graph, task, path, given, at }) {
  const last = path.slice(given, at).find(event => isGoal(graph, task.goal, event));
  if (!last) return 'open';
  return last.isShown ? 'shown' : 'done';
}

function taskTexts(view, tasks) {
  if (view.task === null) return [];
  const number = tasks.indexOf(view.task) + 1, stands = taskStands(view);
  const again = `<button data-task="${number - 1}">again</button>`;
  const next = number < tasks.length ? ` <button id="following" data-task="${number}">next task<kbd>n</kbd></button>`
    : ' That was the last task.';
  const text = `<b>Task ${number}.</b> ${escape(view.task.text)}`, seen = escape(view.task.seen);
  if (stands === 'open') return [`${text} ${again}<button id="hint">show me</button>`, ...lostTexts(view)];
  if (stands === 'done') return [text, `<span class="done"><b>✓ Done.</b> ${seen}</span>${next}`];
  return [text, `<b>Shown.</b> ${seen} To do it yourself, press ${again}${next}`];
}

// says so if more events lead from this moment to the end of the task than from its start
function lostTexts({ graph, task, path, given, at }) {
  const eventsLeft = moment => wayTo(graph, endOf(path.slice(0, moment)), event => isGoal(graph, task.goal, event)).length || Infinity;
  const isLost = at > given && eventsLeft(at) > eventsLeft(given);
  const lost = 'Here you are farther from the end of this task than at its start: press <b>again</b>, or go back.';
  return isLost ? [`<span class="fault">${lost}</span>`] : [];
}

// what has just happened, in sentences
function eventTexts(event, sentences) {
  if (!event) return [sentences.start.does];
  const texts = [], name = nameOf(event.step);
  if (event.act !== '.') {
    const what = event.turn === 'begins' ? sentences.begins.does : 'its checks answer at once.';
    texts.push(`<b>Seat ${event.seat}, ${escape(shownAct(event.act))}</b>: ${what}`);
  } else {
    const raw = `<code class="soft">${escape(event.step.slice(name.length + 2))}</code>`;
    const does = withStop(sentence(sentences, name, event.seat).does);
    texts.push(`<b>${shownName(event.step)}</b> of seat ${event.seat}: ${does}`,
      `${answerOf(event.step, event.seat)} ${outcomeOf(event.step)} ${raw}`);
  }
  const answer = () => withStop(sentence(sentences, turnName(event), event.seat).does);
  if (isAnswer(event.turn)) texts.push(`<b>${escape(event.turn)}.</b> ${answer()}`);
  return texts;
}

// the name of an answer in steps.txt: without the numbers that it has, and with check for what the checks refuse
function turnName({ act, turn }) {
  const name = act === '.' ? turn : turn.replace('refused', 'check');
  return name.replace(/^(ends Waiting).*/, '$1').replace(/ \d+$/, '');
}

// a wrong mutex says so, and names the fault if it has come to one
function wrongTexts(graph, node) {
  if (graph.kind !== 'wrong') return [];
  const fault = faultOf(graph, node);
  const said = 'This mutex has a fault on purpose, to show what a step is for. The right mutex does not have it.';
  return [`<span class="fault">${said}</span>`,
    ...(fault ? [`<b class="fault">Here is the fault. ${fault}</b>`] : [])];
}

// who has the responsibility. The place that a trace names is right in the right mutex alone
function placeTexts(state, sentences) {
  const { placeName, placeSeat } = state, many = manyResponsible(state), isRight = many === (placeName === 'free' ? 0 : 1);
  const who = many === 0 ? 'nobody' : many > 1 ? 'more than one' : '';
  const place = isRight ? sentence(sentences, 'place ' + placeName, placeSeat).does
    : who && `In this state of a mutex with a fault ${who} has the responsibility.`;
  return place ? [`<span class="soft">${place}</span>`] : [];
}

// how to go on, if more events of the path follow
function onwardTexts({ graph, path, at }) {
  if (at === path.length) return [];
  const drops = graph.kind === 'path' ? '' : ' A choice at a seat drops them.';
  return [`<span class="soft">More events follow: <b>on ▶</b> shows the next one.${drops}</span>`];
}

// all of it, each part as a text of its own
function storyTexts(view, sentences, tasks) {
  const state = stateAfter(view, view.at);
  return [...taskTexts(view, tasks), ...eventTexts(view.path[view.at - 1], sentences), ...wrongTexts(view.graph, state.node),
    ...placeTexts(state, sentences), ...onwardTexts(view)];
}

if (typeof module !== 'undefined') Object.assign(module.exports, { taskStands, turnName, storyTexts });
