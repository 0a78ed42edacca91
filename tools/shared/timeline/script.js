'use strict';
(function () {
  const lives = [...document.querySelectorAll('.life')], panel = document.getElementById('panel'), entries = new Map();
  for (const entry of document.querySelectorAll('pre [data-l]')) {
    const line = entry.dataset.l;
    entries.set(line, (entries.get(line) || '') + entry.textContent);
  }
  for (const title of document.querySelectorAll('.track title')) {
    const holder = title.parentNode;
    holder.setAttribute('aria-label', title.textContent);
    holder.setAttribute('role', 'img');
    title.remove();
  }
  let pinned = null;
  function wordsOf(holder) {
    const label = holder.getAttribute('aria-label'), line = holder.dataset.l || (/^line ([0-9]+)/.exec(label) || [])[1];
    return label + (entries.has(line) ? '\n' + entries.get(line).trimEnd() : '');
  }
  function show(holder) { panel.textContent = holder ? wordsOf(holder) : ''; }
  function letGo() {
    pinned = null;
    document.body.classList.remove('pinned');
    for (const lit of document.querySelectorAll('.lit')) lit.classList.remove('lit');
    show(null);
  }
  function pin(life) {
    letGo();
    pinned = life;
    document.body.classList.add('pinned');
    const number = life.id.slice(1), lit = [life, ...document.querySelectorAll('[data-g~="' + number + '"]')];
    for (const base of (life.dataset.d || '').split(' ')) lit.push(document.getElementById('g' + base));
    for (const one of lit) if (one) one.classList.add('lit');
    show(life);
  }
  function focus(life) {
    for (let holder = life; holder; holder = holder.parentElement) if (holder.tagName === 'DETAILS') holder.open = true;
    for (const one of lives) one.setAttribute('tabindex', one === life ? '0' : '-1');
    life.focus();
    life.scrollIntoView({block: 'nearest', inline: 'nearest'});
    show(life);
  }
  const visible = life => life.getClientRects().length > 0;
  function step(life, along, by) {
    const band = life.closest('.row'), seen = lives.filter(visible);
    if (along) return seen[seen.indexOf(life) + by];
    const others = seen.filter(one => one.closest('.row') !== band);
    return by > 0 ? others.find(one => band.compareDocumentPosition(one) & 4)
      : others.filter(one => band.compareDocumentPosition(one) & 2).pop();
  }
  const moves = {ArrowRight: [true, 1], ArrowLeft: [true, -1], ArrowDown: [false, 1], ArrowUp: [false, -1]};
  document.addEventListener('keydown', event => {
    const life = event.target.closest && event.target.closest('.life');
    if (event.key === 'Escape') letGo();
    if (!life) return;
    if (event.key === 'Enter') pin(life);
    if (moves[event.key]) {
      const next = step(life, ...moves[event.key]);
      if (next) focus(next);
      event.preventDefault();
    }
  });
  document.addEventListener('click', event => {
    const link = event.target.closest('a[href^="#g"]'), life = link ? document.getElementById(link.hash.slice(1)) : event.target.closest('.life');
    if (link) event.preventDefault();
    if (life) { focus(life); if (pinned === life && !link) letGo(); else pin(life); } else if (event.target.closest('.tracks')) letGo();
  });
  document.addEventListener('mouseover', event => {
    const holder = event.target.closest('[aria-label][role="img"]');
    if (holder) show(holder); else if (!pinned) show(null); else show(pinned);
  });
  if (lives.length) lives[0].setAttribute('tabindex', '0');
})();
