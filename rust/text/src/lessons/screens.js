'use strict';
// The calls of eight screens. What it says was written by whatif-text from the library's answers; this shows it by turns.
(() => {
  const byId = id => document.getElementById(id);
  const steps = JSON.parse(byId('data').textContent).steps, last = steps.length - 1;
  let at = 0;

  const element = (name, className) => {
    const made = document.createElement(name);
    made.className = className;
    return made;
  };
  const frames = steps[0].screens.map((_, i) => {
    const frame = element('section', 'screen');
    frame.id = 's' + i;
    const head = element('h2', 'head');
    head.textContent = 'Screen ' + i;
    const bar = element('progress', 'bar');
    bar.setAttribute('aria-label', 'parts handled');
    frame.append(head, element('p', 'state'), element('p', 'turn'), element('p', 'question'), bar, element('p', 'handled'),
      element('p', 'last'));
    return frame;
  });
  byId('screens').append(...frames);

  function show() {
    const step = steps[at];
    byId('bar').max = last;
    byId('bar').value = at;
    byId('count').textContent = `call ${at} of ${last}`;
    byId('say').textContent = step.say;
    byId('say').className = step.refused ? 'refused' : '';
    byId('next').textContent = step.next;
    byId('changed').textContent = step.changed;
    step.screens.forEach((screen, i) => {
      const frame = frames[i], part = name => frame.querySelector('.' + name);
      const turn = { 'is next': ' next', waits: ' waits' }[screen.turn] || '';
      frame.className = 'screen ' + screen.state + turn + (screen.changed ? ' changed' : '');
      part('state').textContent = screen.state;
      part('turn').textContent = screen.turn;
      part('question').textContent = screen.question && 'What if ' + screen.question + '?';
      part('handled').textContent = screen.handled;
      part('bar').hidden = screen.parts === 0;
      part('bar').max = screen.parts || 1;
      part('bar').value = screen.done;
      part('last').className = 'last ' + screen.class;
      part('last').textContent = screen.last;
    });
    for (const id of ['advance', 'end']) byId(id).setAttribute('aria-disabled', String(at === last));
    for (const id of ['back', 'home']) byId(id).setAttribute('aria-disabled', String(at === 0));
  }

  const go = to => {
    at = Math.min(last, Math.max(0, to));
    show();
  };
  const calls = { advance: () => go(at + 1), back: () => go(at - 1), end: () => go(last), home: () => go(0) };
  for (const [id, call] of Object.entries(calls)) byId(id).addEventListener('click', call);
  const keys = { ArrowRight: calls.advance, ArrowLeft: calls.back, End: calls.end, Home: calls.home };
  document.addEventListener('keydown', event => {
    if (event.ctrlKey || event.altKey || event.metaKey || !Object.hasOwn(keys, event.key)) return;
    event.preventDefault();
    keys[event.key]();
  });
  show();
})();
