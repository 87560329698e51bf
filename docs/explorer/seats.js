'use strict';
// The panels of the seats, as text in HTML: what each seat is doing, what its next step does, and buttons for what it may
// do. Nothing here touches the document, so node runs this file after drawing.js.

// what a call remembers at its point, in words
function memoryOf(point) {
  const found = / (seen|for|as|after) (.+)$/.exec(point);
  if (!found) return '';
  const [, kind, what] = found;
  if (kind === 'seen') return what[0] === '(' ? `It has seen the push word ${what}.` : `It has seen the post ${what}.`;
  if (kind === 'for') return what.includes('#') ? `It serves the record ${what}.` : `It acts for seat ${what}.`;
  if (kind === 'as') return what === '#0' ? '' : `The record that was served had the stamp ${what.slice(1)}.`;
  return `Its release has ended ${what}.`;
}

// what a seat is and does, in a few words, and the style of its panel
function statusOf(state, seat) {
  const { point } = state.seats[seat - 1], has = state.placeSeat === seat ? state.placeName : '';
  const style = { owner: 'own', carried: 'carry', passed: 'granted' }[has] || (point.startsWith('sleeps') ? 'asleep' : '');
  const asleep = has === 'passed' ? 'sleeps, and has a grant' : 'sleeps';
  const idle = point.startsWith('sleeps') ? asleep : isInCall(point) ? `is in its ${point.split(' ')[0]}` : 'rests';
  return { style, has, is: { owner: 'owns', carried: 'carries the responsibility' }[has] || idle };
}

const withStop = text => /[.?!]$/.test(text) ? text : text + '.';

// the sentences of a seat whose call is open: its next step, and what can follow
function openText(view, sentences, point, seat) {
  const { does, next } = sentence(sentences, nameOf(point), seat);
  return `<p>Next, <b>${shownName(point)}</b>: ${withStop(does)} ${memoryOf(point)}</p>`
    + (view.graph.kind === 'wrong' || next === '' ? '' : `<p class="next">Then: ${next}</p>`);
}

// why the checks of calls refuse them now, as one sentence
function refusedText(sentences, refusals, seat) {
  const reasons = [...new Set(refusals.map(({ why }) => why))].map(why => {
    const acts = refusals.filter(refusal => refusal.why === why).map(({ act }) => shownAct(act)).join(', ');
    return `${acts} as ${why}, since ${sentence(sentences, 'check ' + why, seat).does}`;
  });
  return reasons.length === 0 ? '' : `<p class="next">Refused: ${reasons.join('; ')}.</p>`;
}

// the sentences of a seat that rests or sleeps: what it may begin, and what its checks refuse
function idleText(view, sentences, { moves, refusals }, { depth, point }, seat) {
  if (view.graph.kind === 'path') return moves.length ? '' : '<p class="next">It makes no further step in this schedule.</p>';
  const only = moves.map(({ act }) => act).join(' or '), isAsleep = point.startsWith('sleeps');
  const rest = moves.length === 0 ? 'It can begin no call here.'
    : isAsleep ? `It sleeps, and may only call ${only}, which looks for a grant.` : 'Choose the call that it begins.';
  const isLeftOut = depth > 0 && ![...moves, ...refusals].some(({ act }) => act === 'lock');
  return `<p class="next">${rest}</p>${refusedText(sentences, refusals, seat)}`
    + (isLeftOut ? '<p class="next">This page leaves out a lock by a seat that already holds.</p>' : '');
}

function buttonsOf(choice, seat, isOpen) {
  const button = (act, text, key) => `<button class="main" data-seat="${seat}" data-act="${act}"
 aria-label="seat ${seat}: ${text}">${text}${key === '' ? '' : `<kbd>${key}</kbd>`}</button>`;
  if (isOpen && choice.moves.length === 0) return '';
  if (isOpen) return button('.', 'make this step', seat) + button('*', 'finish the call', 'shift ' + seat);
  return choice.moves.map(({ act }, i) => button(act, shownAct(act), i === 0 ? seat : '')).join('')
    + choice.refusals.map(({ act, why }) => `<button disabled title="refused as ${why}">${shownAct(act)}</button>`).join('');
}

function drawSeat(view, sentences, state, seat) {
  const { point, depth, takes } = state.seats[seat - 1], choice = state.choices[seat - 1];
  const { style, has, is } = statusOf(state, seat);
  const text = isInCall(point) ? openText(view, sentences, point, seat) : idleText(view, sentences, choice, state.seats[seat - 1], seat);
  const token = `<circle cx="7" cy="8" r="6" class="token" data-at="seat.${seat}"/>`;
  const mark = has === 'carried' ? `<svg width="14" height="14" class="inline" aria-hidden="true">${token}</svg> ` : '';
  const used = `acquisitions used: ${takes}${view.graph.budget === LARGEST_BUDGET ? '' : ' of ' + view.graph.budget}`;
  return `<section class="seat ${style}" aria-labelledby="seat${seat}">
<h2 id="seat${seat}">${mark}Seat ${seat} <span>${is} <span class="uses">depth ${depth} · ${used}</span></span></h2>
<div class="buttons">${buttonsOf(choice, seat, isInCall(point))}</div>${text}</section>`;
}

function drawSeats(view, sentences) {
  const state = stateAfter(view, view.at);
  return state.seats.map((seat, i) => drawSeat(view, sentences, state, i + 1)).join('');
}

if (typeof module !== 'undefined') Object.assign(module.exports, { memoryOf, drawSeats });
