// What a page shows after some presses, as an SVG: the tree of a question, or the frames of eight screens.
const press = what => document.getElementById(what).dispatchEvent(new MouseEvent('click', { bubbles: true, cancelable: true }));
const shown = node => new XMLSerializer().serializeToString(node);
function tree() {
  const svg = document.querySelector('#tree svg').cloneNode(true);
  for (const name of ['style', 'tabindex', 'role', 'aria-label', 'aria-expanded']) {
    for (const node of [svg, ...svg.querySelectorAll(`[${name}]`)]) node.removeAttribute(name);
  }
  return shown(svg);
}
function frames(width, height) {
  const size = `width="${width}" height="${height}"`;
  const screens = document.getElementById('screens');
  screens.style.margin = '10px';
  const body = shown(screens);
  return `<svg xmlns="http://www.w3.org/2000/svg" viewBox="0 0 ${width} ${height}" ${size}><foreignObject ${size}>${body}</foreignObject></svg>`;
}
