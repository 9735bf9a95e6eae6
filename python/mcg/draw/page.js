(function () {
  'use strict';
  document.documentElement.classList.add('js');
  var nodes = Array.prototype.slice.call(document.querySelectorAll('.tree details'));
  nodes.forEach(function (it, k) { it.open = k === 0; });
  document.querySelectorAll('[data-open]').forEach(function (button) {
    button.addEventListener('click', function () { nodes.forEach(function (it) { it.open = button.dataset.open === 'all'; }); });
  });
  function reach() {
    var it = location.hash && document.getElementById(location.hash.slice(1));
    if (!it || !it.classList.contains('node')) return;
    for (var up = it.parentNode; up; up = up.parentNode) if (up.tagName === 'DETAILS') up.open = true;
    it.scrollIntoView({ block: 'center' });
    it.focus({ preventScroll: true });
  }
  addEventListener('hashchange', reach);
  reach();
  var before = [];
  addEventListener('beforeprint', function () { before = nodes.map(function (it) { return it.open; }); nodes.forEach(function (it) { it.open = true; }); });
  addEventListener('afterprint', function () { nodes.forEach(function (it, k) { it.open = before[k]; }); });
  document.querySelectorAll('.steps').forEach(function (box) {
    var steps = Array.prototype.slice.call(box.querySelectorAll('.step')), at = 0;
    if (steps.length < 2) return;
    var bar = document.createElement('div');
    bar.className = 'bar-of-steps';
    function button(text, label, go) {
      var it = document.createElement('button');
      it.type = 'button'; it.textContent = text; it.setAttribute('aria-label', label); it.addEventListener('click', go);
      return it;
    }
    var back = button('\u2039', 'back', function () { show(at - 1); }), on = button('\u203a', 'on', function () { show(at + 1); });
    var range = document.createElement('input'), said = document.createElement('output');
    range.type = 'range'; range.min = 0; range.max = steps.length - 1; range.value = 0;
    range.setAttribute('aria-label', box.dataset.name);
    range.addEventListener('input', function () { show(+range.value); });
    said.setAttribute('aria-live', 'polite');
    [back, range, on, said].forEach(function (it) { bar.appendChild(it); });
    box.parentNode.insertBefore(bar, box);
    function show(k) {
      at = Math.max(0, Math.min(steps.length - 1, k));
      steps.forEach(function (it, i) { it.hidden = i !== at; });
      range.value = at; back.disabled = at === 0; on.disabled = at === steps.length - 1;
      said.textContent = at + ' of ' + (steps.length - 1);
      range.setAttribute('aria-valuetext', steps[at].getAttribute('aria-label'));
    }
    [box, bar].forEach(function (it) {
      it.addEventListener('keydown', function (e) {
        if (e.target === range) return;
        var k = { ArrowRight: at + 1, ArrowLeft: at - 1, Home: 0, End: steps.length - 1 }[e.key];
        if (k !== undefined) { show(k); e.preventDefault(); }
      });
    });
    box.tabIndex = 0;
    show(0);
  });
})();
