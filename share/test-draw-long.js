// What long_pictures.py asks of the page of a long history in a browser; its value is the answer.
'use strict';
(function () {
  const by = function (id) { return document.getElementById(id); };
  const view = by('view'), boards = {}, looked = [];
  const calls = function () { return Array.from(view.querySelectorAll('.call')); };
  const numberOf = function (call) { return Number(call.dataset.id.slice(5)); };
  const numbers = function () { return calls().map(numberOf); };
  const press = function (id) { by(id).click(); return [by('where').textContent, numbers()]; };
  const look = function () {
    calls().forEach(function (call) {
      call.focus();
      looked.push(numberOf(call));
      if (by('board')) { boards[numberOf(call)] = by('board').textContent; }
    });
    document.activeElement.blur();
  };
  const first = numbers();
  look();
  const later = press('later'), again = press('later');
  look();
  const back = press('first'), earlier = press('earlier');
  const strip = view.querySelector('[data-id=strip] .all'), box = strip.getBoundingClientRect();
  strip.dispatchEvent(new MouseEvent('click', { bubbles: true, clientX: box.right - 1, clientY: box.top + 2 }));
  const struck = [by('where').textContent, numbers()];
  press('first');
  const isFaulty = !by('marks').hidden, faults = [];
  const seek = function (id) { by(id).click(); if (isFaulty) { faults.push(numberOf(document.activeElement)); } };
  ['next', 'next', 'next', 'previous'].forEach(seek);
  const why = by('panel').textContent;
  const marked = function () { return view.querySelectorAll('.call[class*=fault-]').length; };
  const shown = marked(), boxes = Array.from(by('kinds').querySelectorAll('input'));
  const turn = function () { boxes.forEach(function (it) { it.click(); }); return marked(); };
  const hidden = turn(), whole = turn();
  return { first: first, later: later, again: again, back: back, earlier: earlier, struck: struck, boards: boards, looked: looked, faults: faults,
    why: why, marked: [shown, hidden, whole], loaded: performance.getEntriesByType('resource').length };
}());
