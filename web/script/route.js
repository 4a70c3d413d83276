// The view of the route table: its routes, and the one that the module says decides a number.

const MOST_SHOWN_ROUTES = 4;

// A route in the words of its table.
function routeText(route) {
  const deleted = route.deleted ? `, delete ${route.deleted}` : '';
  const prefixed = route.prefix ? `, prefix ${route.prefix}` : '';
  return `${route.code} → trunk ${route.trunk}${deleted}${prefixed}`;
}

class RouteView {
  constructor(top, status) {
    this.top = top;
    this.status = status;
    this.routes = [];
  }

  use(routes) {
    this.routes = routes;
    this.clear();
  }

  // The routes, and lit the one of this code. Of many its neighbours are shown.
  light(code) {
    this.top.textContent = '';
    const at = this.routes.findIndex((route) => route.code === code);
    const from = Math.max(0, Math.min(at - 2, this.routes.length - MOST_SHOWN_ROUTES));
    const shown = this.routes.slice(from, from + MOST_SHOWN_ROUTES);
    for (const route of shown) {
      make('span', route.code === code ? { class: 'taken' } : {}, this.top, routeText(route));
    }
    const more = this.routes.length - shown.length;
    if (more > 0) make('span', {}, this.top, `and ${more} more`);
  }

  clear() {
    this.light('');
    this.status.textContent = '';
  }

  showKeyed(name, number, code, trunk, keyed) {
    this.light(code);
    this.status.textContent = `trunk group ${trunk}`;
    const line = make('p', {}, this.top);
    const bold = (words) => make('b', {}, null, words);
    line.append(`${name}: `, bold(number), ' leaves by trunk group ', bold(trunk), ', keyed as ', bold(keyed));
  }

  showRefused(name, why) {
    this.light('');
    this.status.textContent = 'none';
    make('p', { class: 'refused' }, this.top, `${name}: ${why}`);
  }
}
