// What is wrong with the page in which it runs, as a list of lines. The cases call it; no page bears it.
function () {
  const survey = window.survey = {
    visible: (element) => element.checkVisibility({ visibilityProperty: true }),
    focusable: () => [...document.querySelectorAll("a[href], summary, button, input, select, textarea, [tabindex]")]
      .filter((element) => survey.visible(element) && element.tabIndex >= 0),
    named: (element) => (element.tagName + " " + (element.getAttribute("aria-label") || element.textContent))
      .replace(/\s+/g, " ").slice(0, 60),
    showsFocus: () => {
      const style = getComputedStyle(document.activeElement);
      return style.outlineStyle !== "none" && parseFloat(style.outlineWidth) >= 2;
    },
  };
  const faults = [];
  const fault = (kind, what) => faults.push(kind + ": " + what);
  const all = (selector, root = document) => [...root.querySelectorAll(selector)];
  for (const details of all("details")) details.open = true;

  // ---- what a page has to have
  if (document.documentElement.lang !== "en") fault("structure", "no language");
  if (!document.title.trim()) fault("structure", "no title");
  if (document.compatMode !== "CSS1Compat") fault("structure", "no doctype");
  const policy = document.querySelector("meta[http-equiv=Content-Security-Policy]");
  if (!policy || !policy.content.startsWith("default-src 'none';")) fault("structure", "no policy");
  for (const element of all("script, iframe, object, embed, link, base, form, img, audio, video"))
    fault("structure", "there is a " + element.localName);
  for (const element of all("[href], [src]")) {
    const to = element.getAttribute("href") || element.getAttribute("src");
    if (!to.startsWith("#")) fault("structure", "it leads to " + to);
    else if (!document.getElementById(to.slice(1))) fault("structure", "there is no " + to);
  }
  const ids = all("[id]").map((element) => element.id);
  for (const id of ids) if (ids.indexOf(id) !== ids.lastIndexOf(id)) fault("structure", "twice: " + id);
  if (all("main").length !== 1) fault("structure", "not one main part");
  let level = 0;
  for (const heading of all("h1, h2, h3, h4, h5, h6")) {
    const next = Number(heading.localName[1]);
    if (next > level + 1 || (next === 1 && level > 0))
      fault("structure", "a heading out of order: " + heading.textContent);
    level = next;
  }
  if (level === 0) fault("structure", "no heading");
  for (const picture of all("svg"))
    if (picture.getAttribute("role") !== "img" || !picture.getAttribute("aria-label"))
      fault("structure", "a picture without a label");
  for (const table of all("table")) {
    const box = table.parentElement;
    if (!box.matches(".scroll[role=region]") || box.tabIndex !== 0 || !box.getAttribute("aria-label"))
      fault("structure", "a table that is in no box with a label, which the keyboard comes to");
    if (!table.querySelector("th[scope]")) fault("structure", "a table without heads");
  }

  // ---- whether there is room for it
  const wide = document.scrollingElement.scrollWidth;
  if (wide > innerWidth) fault("too wide", wide + " of " + innerWidth);
  for (const text of all("body *").filter((element) => survey.visible(element) && !element.closest("svg"))) {
    const size = parseFloat(getComputedStyle(text).fontSize);
    if (size < 13) fault("too small", size + " " + text.textContent.slice(0, 40));
  }
  for (const picture of all("svg").filter(survey.visible))
    for (const text of all("text", picture)) {
      const box = text.getBoundingClientRect(), around = picture.getBoundingClientRect();
      const size = parseFloat(getComputedStyle(text).fontSize) * around.width / picture.viewBox.baseVal.width;
      if (size < 9.5) fault("too small", size + " in a picture: " + text.textContent);
      if (box.left < around.left - 1 || box.right > around.right + 1)
        fault("too wide", "in a picture: " + text.textContent);
    }

  // ---- whether it stands out from what is behind it
  const numbers = (colour) => (colour.match(/[\d.]+/g) || []).map(Number);
  const light = (colour) => {
    const parts = numbers(colour).slice(0, 3).map((part) => part / 255)
      .map((part) => (part <= 0.04045 ? part / 12.92 : ((part + 0.055) / 1.055) ** 2.4));
    return 0.2126 * parts[0] + 0.7152 * parts[1] + 0.0722 * parts[2];
  };
  const contrast = (one, two) => {
    const [less, more] = [light(one), light(two)].sort((a, b) => a - b);
    return (more + 0.05) / (less + 0.05);
  };
  const behind = (element) => {
    for (let at = element; at; at = at.parentElement) {
      const colour = numbers(getComputedStyle(at).backgroundColor);
      if (colour.length === 3 || colour[3] === 1) return getComputedStyle(at).backgroundColor;
    }
    return "rgb(255, 255, 255)";
  };
  const seen = new Set();
  const check = (what, one, two, least) => {
    const found = contrast(one, two), line = what + " " + one + " on " + two + ": " + found.toFixed(2);
    if (found < least && !seen.has(line)) fault("contrast", line);
    seen.add(line);
  };
  const texts = document.createTreeWalker(document.body, NodeFilter.SHOW_TEXT);
  while (texts.nextNode()) {
    const element = texts.currentNode.parentElement;
    if (!texts.currentNode.data.trim() || !survey.visible(element) || element.localName === "title") continue;
    const picture = element.closest("svg"), style = getComputedStyle(element);
    if (picture) check("a text", style.fill, getComputedStyle(picture.querySelector("rect")).fill, 4.5);
    else check("a text", style.color, behind(element), 4.5);
  }
  for (const picture of all("svg").filter(survey.visible)) {
    const back = getComputedStyle(picture.querySelector("rect")).fill;
    for (const line of all("[class^=line-]", picture)) check("a line", getComputedStyle(line).stroke, back, 3);
    for (const dot of all("[class^=dot-]", picture)) check("a dot", getComputedStyle(dot).fill, back, 3);
  }
  return faults;
}
