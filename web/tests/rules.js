// Rules of a page that a keyboard, a screen reader and weak eyes can use, looked at in a browser. Each broken one is named with its element.

/** Runs in the page: names, labels, headings, tables and contrasts. */
function inPage() {
  const broken = [], name = (it) => `${it.tagName.toLowerCase()}${it.id ? `#${it.id}` : ''}`;
  const isShown = (it) => it.getClientRects().length > 0 && getComputedStyle(it).visibility === 'visible';
  const note = (holds, it, what) => holds || broken.push(`${name(it)} ${what}`);
  const nameOf = (it) => it.getAttribute('aria-label') || (it.labels?.length ? [...it.labels].map((label) => label.innerText).join(' ') : '') || it.innerText || '';
  const all = (selector) => [...document.querySelectorAll(selector)].filter(isShown);

  note(document.documentElement.lang === 'en', document.documentElement, 'has no language');
  note(document.title !== '', document.documentElement, 'has no title');
  note(all('h1').length === 1 && all('main').length === 1, document.body, 'has not one h1 and one main');
  const ids = [...document.querySelectorAll('[id]')].map((it) => it.id);
  ids.filter((id, at) => ids.indexOf(id) !== at).forEach((id) => broken.push(`the id ${id} is there twice`));
  all('button, input, select, textarea, a, summary').forEach((it) => note(nameOf(it).trim() !== '', it, 'has no name'));
  all('svg').forEach((it) => note(it.getAttribute('aria-hidden') === 'true' || (it.getAttribute('role') === 'img' && it.getAttribute('aria-label')), it, 'is a picture without a name'));
  document.querySelectorAll('[tabindex]').forEach((it) => note(it.tabIndex <= 0, it, 'has a place of its own in the order of focus'));
  document.querySelectorAll('[aria-labelledby], [for]').forEach((it) => note(document.getElementById(it.getAttribute('aria-labelledby') ?? it.getAttribute('for')), it, 'names an element that is not there'));
  all('table').forEach((it) => note(it.caption && [...it.querySelectorAll('thead th')].every((cell) => cell.scope === 'col') && [...it.querySelectorAll('tbody th')].every((cell) => cell.scope === 'row'), it, 'lacks a caption or scopes'));
  all('[role="status"]').length || broken.push('nothing is read out when it changes');
  let level = 0;
  all('h1, h2, h3, h4').forEach((it) => {
    const next = Number(it.tagName[1]);
    note(next <= level + 1, it, `skips a level: ${it.innerText}`);
    level = next;
  });
  all('button, select, input[type=number], input[type=range]').forEach((it) => note(it.getBoundingClientRect().height >= 16 && it.getBoundingClientRect().width >= 24, it, 'is too small to be hit'));

  const parts = (colour) => (colour.match(/[\d.]+/g) ?? []).map(Number);
  const over = ([r, g, b, a = 1], below) => [r, g, b].map((it, at) => it * a + below[at] * (1 - a));
  const light = (colour) => {
    const [r, g, b] = colour.map((it) => it / 255).map((it) => (it <= 0.03928 ? it / 12.92 : ((it + 0.055) / 1.055) ** 2.4));
    return 0.2126 * r + 0.7152 * g + 0.0722 * b;
  };
  const ground = (it) => {
    if (!it) return [255, 255, 255];
    const colour = parts(getComputedStyle(it).backgroundColor);
    return colour.length === 3 || colour[3] === 1 ? colour.slice(0, 3) : over(colour, ground(it.parentElement));
  };
  /** The colour behind a text of a picture: that of the boxes of its group, one over the other. */
  const groundOfText = (it) => [...(it.parentElement.tagName === 'g' ? it.parentElement.querySelectorAll('rect') : [])].reduce((below, box) => {
    const style = getComputedStyle(box);
    return over([...parts(style.fill).slice(0, 3), Number(style.fillOpacity)], below);
  }, ground(it.closest('svg')));
  let least = 99;
  const walker = document.createTreeWalker(document.body, NodeFilter.SHOW_TEXT);
  for (let text = walker.nextNode(); text; text = walker.nextNode()) {
    const it = text.parentElement;
    if (!text.data.trim() || !isShown(it) || ['SCRIPT', 'STYLE', 'NOSCRIPT', 'TITLE', 'OPTION'].includes(it.tagName.toUpperCase())) continue;
    const isPicture = it.namespaceURI.endsWith('svg'), style = getComputedStyle(it), below = isPicture ? groundOfText(it) : ground(it);
    const colour = over(parts(isPicture ? style.fill : style.color), below), [a, b] = [light(colour), light(below)];
    const contrast = (Math.max(a, b) + 0.05) / (Math.min(a, b) + 0.05);
    least = Math.min(least, contrast);
    note(contrast >= 4.5, it, `has a contrast of ${contrast.toFixed(2)}: ${text.data.trim().slice(0, 30)}`);
  }
  return { broken, least };
}

/** Goes through the page by the key Tab: each shown control comes once, in the order of the page. */
async function orderBroken(browser) {
  await browser.value("(() => { window.scrollTo(0, 0); document.activeElement.blur(); document.querySelectorAll('*').forEach((it) => { delete it.dataset?.met }); return 1; })()");
  const controls = "[...document.querySelectorAll('a[href], button:enabled, input:enabled, select:enabled, textarea:enabled, summary, [tabindex=\"0\"]')].filter((it) => it.getClientRects().length > 0 && it.type !== 'hidden')";
  const count = await browser.value(`${controls}.length`), met = [];
  await browser.value("(document.body.tabIndex = -1, document.body.focus(), document.body.removeAttribute('tabindex'), 1)");
  for (let time = 0; time < count; time++) {
    await browser.press('Tab');
    met.push(await browser.value(`${controls}.indexOf(document.activeElement)`));
  }
  const isInOrder = met.every((place, at) => at === 0 || place > met[at - 1] || place < 0);
  return isInOrder && met.filter((place) => place >= 0).length >= count - 1 ? [] : [`the order of focus is ${met.join(' ')} of ${count}`];
}

/** The rules that the page breaks as it is shown now. */
export async function rulesBroken(browser) {
  const { broken, least } = await browser.value(`(${inPage})()`);
  console.log(`${browser.version}: the least contrast of a text is ${least.toFixed(2)}`);
  return [...broken, ...(await orderBroken(browser))];
}
