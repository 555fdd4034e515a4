// Presses what it is given in the page of a question, and notes what is to be seen after each.
const byId = id => document.getElementById(id);
const said = id => byId(id).textContent;
function look() {
  note('session', said('session'));
  note('bar', byId('bar').value, byId('bar').max);
  for (const id of ['count', 'say', 'worked']) note(id, said(id));
  note('verdict', byId('verdict').className, said('verdict'));
  for (const id of ['read', 'refused']) note(id, said(id));
  for (const id of ['start', 'advance', 'cancel']) note('disabled', id, byId(id).getAttribute('aria-disabled'));
  for (const item of document.querySelectorAll('#parts li:not([hidden])')) note('part', item.textContent);
  const mend = byId('mend');
  if (mend) {
    const words = [...mend.querySelectorAll('p, li')].map(element => element.textContent);
    const title = mend.querySelector('svg > title');
    note('mend', mend.hidden, words.join(' / '), title ? title.textContent : '');
  }
  const groups = [...document.querySelectorAll('#tree .node')];
  groups.sort((a, b) => Number(a.id.slice(1)) - Number(b.id.slice(1)));
  for (const group of groups) {
    const lines = [...group.querySelectorAll('.head, .line')].map(text => text.textContent);
    if (group.getAttribute('aria-label') !== lines.join(', ')) note('label', group.getAttribute('aria-label'));
    const sign = group.querySelector('.sign');
    note(group.id, group.getAttribute('class'), lines.join(' / '), sign ? sign.textContent : '');
    const edge = byId('e' + group.id.slice(1));
    if (edge) note(edge.id, edge.textContent);
  }
}
function press(what) {
  if (byId(what)) byId(what).dispatchEvent(new MouseEvent('click', { bubbles: true, cancelable: true }));
  else document.dispatchEvent(new KeyboardEvent('keydown', { key: what, bubbles: true, cancelable: true }));
}
function walk(pressed) {
  look();
  for (const what of pressed) {
    note('pressed', what);
    press(what);
    look();
  }
}
