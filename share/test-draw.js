// What test-draw.py asks of a page in a browser; its value is the answer.
'use strict';
(function () {
  const view = document.getElementById('view'), run = view.querySelector('svg'), panel = document.getElementById('panel');
  const all = function (parent, words) { return Array.from(parent.querySelectorAll(words)); };
  const texts = all(run, 'text').filter(function (it) { return it.getBoundingClientRect().width > 0; });
  const boxes = texts.map(function (it) { return it.getBBox(); });
  const covered = [];
  boxes.forEach(function (one, i) { boxes.slice(i + 1).forEach(function (two, j) {
    const isClear = one.x + one.width <= two.x + 1 || two.x + two.width <= one.x + 1 || one.y + one.height <= two.y + 4 || two.y + two.height <= one.y + 4;
    if (!isClear) { covered.push([texts[i].textContent, texts[i + 1 + j].textContent]); }
  }); });
  // the names of the lanes lie over the bars that are left of what is shown
  const barred = [], bars = all(run, '.call .bar').map(function (it) { return it.getBBox(); });
  boxes.forEach(function (one, i) { bars.forEach(function (bar) {
    const isClear = one.x + one.width <= bar.x || bar.x + bar.width <= one.x || one.y + one.height <= bar.y + 4 || bar.y + bar.height <= one.y + 4;
    if (!isClear && !texts[i].classList.contains('name')) { barred.push(texts[i].textContent); }
  }); });
  // Two colours have a contrast from 1 to 21, as the guidelines for readable pages count it.
  const lightness = function (color) {
    const parts = color.match(/[\d.]+/g).slice(0, 3).map(function (it) { return it <= 10 ? it / 3294.6 : Math.pow((it / 255 + 0.055) / 1.055, 2.4); });
    return 0.2126 * parts[0] + 0.7152 * parts[1] + 0.0722 * parts[2] + 0.05;
  };
  const ground = lightness(getComputedStyle(document.body).backgroundColor);
  const isPale = function (color, least) { const it = lightness(color); return Math.max(it, ground) / Math.min(it, ground) < least; };
  const hasText = function (it) { return Array.from(it.childNodes).some(function (node) { return node.nodeType === Node.TEXT_NODE && node.textContent.trim() !== ''; }); };
  const read = all(document.body, ':not(script, svg *)').filter(function (it) { return hasText(it) && it.getClientRects().length > 0; });
  const pale = texts.filter(function (it) { return isPale(getComputedStyle(it).fill, 4.5); })
    .concat(read.filter(function (it) { return isPale(getComputedStyle(it).color, 4.5); }))
    .concat(all(document, '.bar').filter(function (it) { return isPale(getComputedStyle(it).stroke, 3); })).map(function (it) { return it.dataset.id || it.className.baseVal || it.tagName; });
  const smallest = Math.min.apply(null, texts.map(function (it) { return parseFloat(getComputedStyle(it).fontSize) * run.getScreenCTM().a; }));
  const wide = function () { return run.getBoundingClientRect().width; };
  const press = function (key) { document.body.dispatchEvent(new KeyboardEvent('keydown', { key: key, bubbles: true, cancelable: true })); };
  const shown = {};
  all(document, '.call').forEach(function (call) { call.focus(); shown[call.dataset.id] = panel.textContent; });
  document.activeElement.blur();
  const rights = all(document.body, ':not(#view *)').map(function (it) { return it.getBoundingClientRect().right; }).concat(document.documentElement.scrollWidth);
  press('0'); const fitted = wide(), isWhole = view.scrollWidth <= view.clientWidth && view.scrollHeight <= view.clientHeight;
  for (let times = 0; times < 8; times += 1) { press('+'); }
  const larger = wide();
  view.scrollLeft = 0; press('ArrowRight'); const moved = view.scrollLeft;
  press('-'); const smaller = wide();
  const room = view.getBoundingClientRect();
  view.dispatchEvent(new WheelEvent('wheel', { deltaY: -200, clientX: room.left + 9, clientY: room.top + 9, bubbles: true, cancelable: true }));
  const wheeled = wide();
  return { covered: covered, barred: barred, pale: pale, smallest: smallest, isDark: ground < 0.5, shown: shown, page: Math.max.apply(null, rights), window: window.innerWidth,
    loaded: performance.getEntriesByType('resource').length,
    legend: all(document, '#legend li').filter(function (it) { return it.getClientRects().length > 0; }).map(function (it) { return it.textContent.trim().split(/[ :]/)[0]; }),
    heading: document.getElementById('heading').textContent, faults: document.getElementById('faults').textContent,
    isWhole: isWhole, fitted: fitted, larger: larger, moved: moved, smaller: smaller, wheeled: wheeled };
}());
