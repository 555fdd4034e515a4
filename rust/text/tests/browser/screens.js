// Presses what it is given in the page of eight screens, and notes what is to be seen after each.
const byId = id => document.getElementById(id);
function look() {
  note('bar', byId('bar').value, byId('bar').max);
  for (const id of ['count', 'next', 'changed']) note(id, byId(id).textContent);
  note('say', byId('say').className, byId('say').textContent);
  for (let i = 0; i < 8; i++) {
    const frame = byId('s' + i), said = name => frame.querySelector('.' + name).textContent;
    note(frame.id, frame.className, said('state'), said('turn'), said('question'), said('handled'));
    note(frame.id, frame.querySelector('.last').className, said('last'));
  }
}
function walk(pressed) {
  look();
  for (const what of pressed) {
    note('pressed', what);
    if (byId(what)) byId(what).click();
    else document.dispatchEvent(new KeyboardEvent('keydown', { key: what, bubbles: true, cancelable: true }));
    look();
  }
}
