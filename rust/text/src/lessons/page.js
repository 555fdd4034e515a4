'use strict';
// The page of a question. What it says was written by whatif-text from the library's answers; this shows it step by step.
(() => {
  const byId = id => document.getElementById(id);
  const data = JSON.parse(byId('data').textContent);
  const n = data.nodes, rootOfPlan = n - 1;

  // The tree, from the kinds in post-order.
  const left = new Int32Array(n).fill(-1), right = new Int32Array(n).fill(-1), parent = new Int32Array(n).fill(-1);
  const size = new Int32Array(n).fill(1), depth = new Int32Array(n);
  const waiting = [];
  for (let v = 0; v < n; v++) {
    if (data.kinds[v] === 'i') {
      right[v] = waiting.pop();
      left[v] = waiting.pop();
      for (const child of [left[v], right[v]]) {
        parent[child] = v;
        size[v] += size[child];
      }
    }
    waiting.push(v);
  }
  for (let v = n - 2; v >= 0; v--) depth[v] = depth[parent[v]] + 1;

  // By node: its part, the label it takes, the part whose climb passes over it or ends there.
  const part = new Map(data.roots.map((v, i) => [v, i]));
  const takes = new Map(data.takes);
  const passedBy = new Map(), carried = new Map();
  data.climbs.forEach((climb, i) => {
    if (!climb) return;
    for (let v = parent[climb.from]; v !== climb.to; v = parent[v]) passedBy.set(v, i);
    carried.set(climb.to, { part: i, state: climb.state });
  });

  // What is drawn: a small plan whole, else the roots of the parts and what was unfolded.
  const small = n <= data.whole;
  const first = new Set(small ? Array.from({ length: n }, (_, v) => v) : data.roots);
  const shown = new Set(first);

  // Which run, 1 once an answer is kept, and the place in it: 0 is loaded, 1 started, then a place for each part.
  let run = 0, at = 0, note = '';
  const before = [];
  const place = () => data.runs[run][at];

  const grouped = number => String(number).replace(/\B(?=(\d{3})+$)/g, ',');
  const nodes = number => grouped(number) + (number === 1 ? ' node' : ' nodes');

  function stateOf(v, here) {
    const i = part.get(v), was = data.before[v], end = carried.get(v);
    if (i !== undefined && i < here.done) {
      return was === data.after[i] ? `state ${data.stateNames[was]}, as before`
        : `state ${data.stateNames[was]} → ${data.stateNames[data.after[i]]}`;
    }
    if (end && end.part < here.done) return `state ${data.stateNames[end.state]}, carried up`;
    if (passedBy.has(v) && passedBy.get(v) < here.done) return 'passed over';
    return `state ${data.stateNames[was]}`;
  }

  function linesOf(v, here) {
    const i = part.get(v), now = here.done > 0 && i === here.done - 1;
    const lines = [(now ? '▶ ' : '') + 'node ' + v + (i === undefined ? '' : ', part ' + (i + 1))];
    const label = data.labelNames[data.labels[v]];
    lines.push(takes.has(v) ? `label ${label} → ${data.labelNames[takes.get(v)]}` : `label ${label}`);
    lines.push(stateOf(v, here));
    if (v === rootOfPlan) lines.push('the root: ' + here.root);
    const mark = markOf(v, here);
    if (mark && mark.class) lines.push(mark.words);
    return lines;
  }

  // With --allowed: the labels that a node may take. There is no place for them before the question is answered: it
  // would show which nodes are marked later.
  let marked = false;
  const markOf = (v, here) => (marked && here.state === 'answered' ? data.sets[data.allowed[v]] : null);

  // For screen readers: the lines, and several labels that clear the plan.
  function labelOf(v, here) {
    const mark = markOf(v, here), lines = linesOf(v, here).join(', ');
    return mark && !mark.class ? `${lines}; ${mark.words}` : lines;
  }

  function classesOf(v, here) {
    const i = part.get(v), done = i !== undefined && i < here.done, end = carried.get(v), classes = ['node'];
    if (takes.has(v)) classes.push('changed');
    if (i !== undefined) classes.push('root');
    if (done) classes.push('done');
    if (done && data.before[v] !== data.after[i]) classes.push('other');
    if (here.done > 0 && i === here.done - 1) classes.push('now');
    if ((end && end.part < here.done) || (passedBy.has(v) && passedBy.get(v) < here.done)) classes.push('pass');
    const mark = markOf(v, here);
    if (mark && mark.class) classes.push(mark.class);
    if (v === rootOfPlan && here.verdictClass !== 'open') classes.push(here.verdictClass);
    if (opens(v)) classes.push('opens');
    return classes.join(' ');
  }

  const opens = v => !small && left[v] >= 0;
  const folded = v => !shown.has(left[v]) || !shown.has(right[v]);

  // Drawing: places from the widths of the trees below, in post-order; then words and classes of each place.
  const SVG = 'http://www.w3.org/2000/svg', LINE = 17, BETWEEN = 18, DOWN = 46;
  const made = (name, attributes) => {
    const element = document.createElementNS(SVG, name);
    for (const [key, value] of Object.entries(attributes)) element.setAttribute(key, value);
    return element;
  };
  const last = data.runs[0][data.runs[0].length - 1];
  const widthOf = v => {
    // the first line is bold, and has a mark in front at times
    const wide = (line, i) => (i === 0 ? 8.2 * line.length + 36 : 7.3 * line.length + 18);
    const all = [data.runs[0][0], data.runs[0][1], last].flatMap(here => linesOf(v, here).map(wide));
    return Math.ceil(Math.max(90, ...all)) + (part.has(v) ? 12 : 0);
  };
  const linesAt = v => linesOf(v, marked ? last : data.runs[0][0]).length;
  const heightOf = v => linesAt(v) * LINE + 12;
  const wordsOf = (v, above) => {
    const between = depth[v] - depth[above] - 1;
    const climb = data.climbs[part.get(above)];
    const links = climb && climb.from === v ? ` in ${climb.links} ${climb.links === 1 ? 'link' : 'links'}` : '';
    return between === 0 ? '' : nodes(between) + (links || ' between');
  };

  function drawTree() {
    const order = [...shown].sort((a, b) => a - b), below = new Map(), above = new Map(), open = [];
    const wide = new Map(), own = new Map();
    for (const v of order) {
      const children = [];
      while (open.length && open[open.length - 1] > v - size[v]) children.unshift(open.pop());
      children.forEach(child => above.set(child, v));
      below.set(v, children);
      open.push(v);
    }
    for (const v of order) {
      const children = below.get(v), gaps = BETWEEN * Math.max(0, children.length - 1);
      const words = above.has(v) ? 6.6 * wordsOf(v, above.get(v)).length : 0;
      own.set(v, widthOf(v));
      wide.set(v, Math.max(own.get(v), words, children.reduce((sum, child) => sum + wide.get(child), gaps)));
    }
    const from = new Map([[rootOfPlan, 16]]), row = new Map([[rootOfPlan, 0]]);
    for (const v of order.slice().reverse()) {
      const children = below.get(v);
      const sum = children.reduce((total, child) => total + wide.get(child), BETWEEN * Math.max(0, children.length - 1));
      let next = from.get(v) + (wide.get(v) - sum) / 2;
      for (const child of children) {
        from.set(child, next);
        row.set(child, row.get(v) + 1);
        next += wide.get(child) + BETWEEN;
      }
    }
    const step = 3 * LINE + 12 + DOWN + LINE + (marked ? LINE : 0);
    const x = v => from.get(v) + wide.get(v) / 2, y = v => 14 + row.get(v) * step;
    const width = Math.ceil(wide.get(rootOfPlan) + 32);
    const height = Math.ceil(14 + Math.max(...order.map(v => row.get(v))) * step + (marked ? 5 : 4) * LINE + 30);
    const svg = made('svg', { viewBox: `0 0 ${width} ${height}`, width, height, role: 'group' });
    svg.setAttribute('aria-label', 'the plan as a tree');
    for (const v of order) if (above.has(v)) drawEdge(svg, v, above.get(v), x, y);
    for (const v of order) svg.append(drawNode(v, x(v), y(v), own.get(v)));
    // a wide tree is made smaller, as far as it stays readable
    const room = byId('tree').clientWidth || width;
    svg.style.width = Math.min(width, Math.max(room, 0.75 * width)) + 'px';
    svg.style.height = 'auto';
    byId('tree').replaceChildren(svg);
  }

  function drawEdge(svg, v, above, x, y) {
    const words = wordsOf(v, above), ends = { x1: x(above), y1: y(above) + heightOf(above), x2: x(v), y2: y(v) };
    svg.append(made('line', { ...ends, class: words ? 'edge long' : 'edge' }));
    if (!words) return;
    const group = made('g', { class: 'words', id: 'e' + v, tabindex: 0, role: 'button' });
    group.setAttribute('aria-label', `${words} node ${v} and node ${above}: unfold`);
    const text = made('text', { x: x(v), y: y(v) - 12 }), wide = 7 * words.length;
    text.textContent = words;
    group.append(made('rect', { x: x(v) - wide / 2, y: y(v) - 24, width: wide, height: 17 }), text);
    pressed(group, () => {
      for (let up = parent[v], i = 0; up !== above && i < 3; up = parent[up], i++) shown.add(up);
    }, 'e' + v);
    svg.append(group);
  }

  function drawNode(v, x, y, width) {
    const group = made('g', { id: 'n' + v, transform: `translate(${x},${y})` }), height = heightOf(v);
    const inner = width - (part.has(v) ? 12 : 0);
    group.append(made('rect', { class: 'second', x: -inner / 2 - 4, y: -4, width: inner + 8, height: height + 8 }));
    group.append(made('rect', { class: 'first', x: -inner / 2, y: 0, width: inner, height }));
    for (let i = 0; i < linesAt(v); i++) {
      group.append(made('text', { y: LINE * (i + 1) + 1, class: i ? 'line' : 'head' }));
    }
    if (opens(v)) {
      group.setAttribute('tabindex', 0);
      group.append(made('text', { class: 'sign', x: inner / 2 - 10, y: height - 6 }));
      pressed(group, () => unfold(v), 'n' + v);
    }
    return group;
  }

  // A click, Enter or Space; what was asked for is drawn, and the focus stays.
  function pressed(group, act, id) {
    const go = event => {
      event.preventDefault();
      event.stopPropagation();
      act();
      drawTree();
      show();
      const again = byId(id);
      if (again) again.focus();
    };
    group.addEventListener('click', go);
    group.addEventListener('keydown', event => {
      if (event.key === 'Enter' || event.key === ' ') go(event);
    });
  }

  function unfold(v) {
    if (folded(v)) {
      shown.add(left[v]).add(right[v]);
    } else {
      for (const below of [...shown]) if (below < v && below > v - size[v] && !first.has(below)) shown.delete(below);
    }
  }

  function show() {
    const here = place(), marks = here.state === 'answered' && 'allowed' in data;
    if (marks !== marked) {
      marked = marks;
      drawTree();
    }
    for (const v of shown) {
      const group = byId('n' + v), lines = linesOf(v, here);
      group.setAttribute('class', classesOf(v, here));
      group.querySelectorAll('.head, .line').forEach((text, i) => { text.textContent = lines[i]; });
      group.setAttribute('role', opens(v) ? 'button' : 'img');
      group.setAttribute('aria-label', labelOf(v, here));
      if (!opens(v)) continue;
      group.querySelector('.sign').textContent = folded(v) ? '+' : '';
      group.setAttribute('aria-expanded', String(!folded(v)));
    }
    byId('session').textContent = here.state;
    byId('bar').max = data.roots.length;
    byId('bar').value = here.done;
    byId('count').textContent = `${here.done} of ${data.roots.length} ${data.roots.length === 1 ? 'part' : 'parts'}`;
    byId('say').textContent = note || here.say;
    byId('worked').textContent = here.worked;
    byId('verdict').textContent = here.verdict;
    byId('verdict').className = here.verdictClass;
    byId('read').textContent = here.read;
    byId('refused').textContent = '';
    for (const call of ['start', 'advance', 'cancel']) byId(call).setAttribute('aria-disabled', String(call in here.refused));
    byId('end').setAttribute('aria-disabled', String(here.state === 'answered'));
    byId('back').setAttribute('aria-disabled', String(before.length === 0));
    document.querySelectorAll('#parts li').forEach((item, i) => { item.hidden = i >= here.done; });
    byId('walk').hidden = here.done === 0;
    if (byId('mend')) byId('mend').hidden = here.state !== 'answered';
    bringIntoView(byId('n' + (here.done > 0 ? data.roots[here.done - 1] : rootOfPlan)));
  }

  // Inside the tree's frame alone: the words above it stay where they are.
  function bringIntoView(group) {
    const frame = byId('tree'), outer = frame.getBoundingClientRect(), inner = group.getBoundingClientRect();
    const moved = (from, to, first, last) => (from < first ? from - first - 20 : to > last ? to - last + 20 : 0);
    frame.scrollTop += moved(inner.top, inner.bottom, outer.top, outer.bottom);
    frame.scrollLeft += moved(inner.left, inner.right, outer.left, outer.right);
  }

  function go(nextRun, nextAt, words) {
    before.push([run, at, note]);
    [run, at, note] = [nextRun, nextAt, words];
    show();
  }

  // The calls. One that is refused changes nothing, and its refusal is shown.
  const calls = {
    start: () => go(place().state === 'answered' ? 1 : run, 1, ''),
    advance: () => go(run, at + 1, ''),
    cancel: () => go(run, 0, place().cancelled),
  };
  function call(name) {
    const refused = place().refused[name];
    if (refused === undefined) calls[name]();
    else byId('refused').textContent = `${name}: ${refused}`;
  }
  function end() {
    if (place().state === 'loaded') call('start');
    do call('advance'); while (place().state === 'running');
  }
  function back() {
    if (before.length === 0) return;
    [run, at, note] = before.pop();
    show();
  }
  const next = () => call(place().state === 'loaded' ? 'start' : 'advance');

  for (const name of ['start', 'advance', 'cancel']) byId(name).addEventListener('click', () => call(name));
  byId('end').addEventListener('click', end);
  byId('back').addEventListener('click', back);
  const keys = { ArrowRight: next, ArrowLeft: back, End: end, s: () => call('start'), c: () => call('cancel') };
  document.addEventListener('keydown', event => {
    if (event.ctrlKey || event.altKey || event.metaKey || !Object.hasOwn(keys, event.key)) return;
    event.preventDefault();
    keys[event.key]();
  });
  drawTree();
  show();
})();
