// A list whose rows are in the document only while they are seen. All rows have one height.
// Browsers end at some 17 million pixels: a longer list moves on by more than its scroll bar does.
const TALLEST = 8e6, AHEAD = 12;

class Scroll {
  // `wants(from, count)` is to bring rows by `show`; `row(item, index)` makes the element of one.
  constructor(pane, { wants, row, label }) {
    Object.assign(this, { pane, wants, row, count: 0, height: 24, from: -1, until: -1, base: 0, focused: 0 });
    this.space = make('div', { className: 'space' });
    this.list = make('div', { className: 'rows' });
    this.list.setAttribute('role', 'list');
    this.list.setAttribute('aria-label', label);
    this.space.append(this.list);
    pane.onscroll = () => this.update();
    new ResizeObserver(() => this.update()).observe(pane);
    this.list.onkeydown = event => this.move(event);
    this.list.addEventListener('focusin', event => {
      const it = event.target.closest('[data-index]');
      if (it) this.focused = Number(it.dataset.index);
    });
  }
  // Begins a list of `count` rows, each `height` pixels high.
  begin(count, height, header) {
    Object.assign(this, { count, height, from: -1, until: -1, base: 0, focused: 0 });
    this.list.replaceChildren();
    this.space.style.height = `${Math.min(count * height, TALLEST)}px`;
    this.list.style.setProperty('--row', `${height}px`);
    this.pane.replaceChildren(...(header ? [header] : []), this.space);
    this.pane.scrollTop = 0;
    this.update();
  }
  seen() { return Math.max(1, Math.ceil(this.pane.clientHeight / this.height)); }
  // The row at the top of the pane, with its fraction.
  top() {
    const whole = this.count * this.height, most = Math.max(1, Math.min(whole, TALLEST) - this.pane.clientHeight);
    if (whole <= TALLEST) return this.pane.scrollTop / this.height;
    return Math.min(1, this.pane.scrollTop / most) * (this.count - this.pane.clientHeight / this.height);
  }
  update() {
    if (!this.count || !this.pane.clientHeight) return;
    const top = this.top(), first = Math.max(0, Math.floor(top)), last = Math.min(this.count, first + this.seen() + 1);
    const shift = this.pane.scrollTop - (top - first) * this.height;
    this.first = first;
    if (first < this.from || last > this.until || this.from < 0) {
      this.from = Math.max(0, first - AHEAD);
      this.until = Math.min(this.count, last + AHEAD);
      this.wants(this.from, this.until - this.from);
    }
    // Rows that are there stay where they belong until others come.
    this.list.style.transform = `translateY(${shift - (first - this.base) * this.height}px)`;
  }
  // Rows that came, from one on.
  show(from, items) {
    if (from !== this.from) return;
    const isHeld = this.list.contains(document.activeElement), last = from + items.length - 1;
    const focused = Math.min(Math.max(this.focused, from), last);
    this.base = from;
    this.list.replaceChildren(...items.map((item, i) => {
      const index = from + i, row = this.row(item, index);
      row.dataset.index = index;
      row.tabIndex = index === focused ? 0 : -1;
      row.setAttribute('role', 'listitem');
      row.setAttribute('aria-setsize', this.count);
      row.setAttribute('aria-posinset', index + 1);
      return row;
    }));
    this.update();
    if (this.awaits !== undefined) this.focus(this.awaits);
    else if (isHeld) this.element(focused)?.focus({ preventScroll: true });
  }
  // Scrolls so that a row is the first that is seen.
  lead(index) {
    const whole = this.count * this.height, most = Math.min(whole, TALLEST) - this.pane.clientHeight;
    const part = index / (this.count - this.pane.clientHeight / this.height);
    this.pane.scrollTop = whole <= TALLEST ? index * this.height : part * most;
    this.update();
  }
  element(index) { return this.list.querySelector(`[data-index="${index}"]`); }
  // Focuses a row, which is scrolled to first where it is not seen.
  focus(index) {
    index = Math.max(0, Math.min(this.count - 1, index));
    const first = Math.ceil(this.top()), seen = Math.max(1, Math.floor(this.pane.clientHeight / this.height));
    if (index < first || index >= first + seen) {
      this.lead(index < first ? index : index - seen + 1);
    }
    const row = this.element(index);
    this.awaits = row ? undefined : index;
    if (!row) return;
    this.list.querySelectorAll('[tabindex="0"]').forEach(it => { if (it.dataset.index) it.tabIndex = -1; });
    row.tabIndex = 0;
    row.focus({ preventScroll: true });
  }
  move(event) {
    const page = Math.max(1, this.seen() - 2);
    const steps = { ArrowDown: 1, ArrowUp: -1, PageDown: page, PageUp: -page };
    const to = { Home: 0, End: this.count - 1 }[event.key] ?? (steps[event.key] && this.focused + steps[event.key]);
    if (to === undefined || event.ctrlKey || event.metaKey || event.altKey) return;
    event.preventDefault();
    this.focus(to);
  }
}
