"""What the pages of `ebpf check` and `ebpf list` are looked at for in Chromium, by their DOM."""
import html
import json
import re
import subprocess
from pathlib import Path

# Counts what hostile names run, and what the page's own script says of errors.
WATCH = """<script>
window.failed = [];
window.fail = () => failed.push('a name was run');
addEventListener('error', event => failed.push(event.message));
addEventListener('securitypolicyviolation', event => failed.push(event.blockedURI));
</script>"""

# Says on the console when a page is painted.
PAINTS = """<script>
new PerformanceObserver(list => {
  for (const entry of list.getEntries()) console.log(`${entry.name} after ${entry.startTime} ms`);
}).observe({ type: 'paint', buffered: true });
</script>"""

# Helpers of the scripts below, and what writes their answer into the page.
TOOLS = """
const all = query => [...document.querySelectorAll(query)];
const cells = row => [...row.children].map(cell => cell.textContent);
const shown = () => all('#body tr').filter(row => !row.hidden).map(row => row.children[0].textContent);
const press = (key, more) => {
  const event = new KeyboardEvent('keydown', { key, bubbles: true, cancelable: true, ...more });
  document.activeElement.dispatchEvent(event);
  return event.defaultPrevented;
};
const choose = (id, value) => {
  const field = document.getElementById(id);
  if (field.type === 'checkbox') field.checked = value; else field.value = value;
  field.dispatchEvent(new Event('input', { bubbles: true }));
};
"""

SMALL = """
const rows = all('#body tr');
answer.head = cells(document.querySelector('#head tr'));
answer.rows = rows.map(cells);
answer.loads = all('[src], link').length;
answer.stops = all('#matrix [tabindex="0"]').length;
answer.unnamed = all('select, input').filter(field => !field.labels.length).length;
answer.scopes = all('#matrix th').every(cell => cell.scope === 'row' || cell.scope === 'col');
answer.live = all('[aria-live="polite"]').map(part => part.id);
answer.role = document.getElementById('matrix').getAttribute('role');
rows[1].children[2].click();
answer.clicked = document.getElementById('cell').innerText.split('\\n').filter(Boolean);
rows[0].children[1].focus();
press('End');
press('ArrowRight');
answer.stop = document.activeElement === rows[1].children[2];
answer.modified = ['altKey', 'ctrlKey', 'metaKey'].map(name => press('ArrowLeft', { [name]: true }));
answer.unmoved = document.activeElement === rows[1].children[2];
press('PageUp');
press('ArrowLeft');
press('PageDown');
press('PageUp');
press('Enter');
answer.entered = document.getElementById('cell').innerText.split('\\n').filter(Boolean);
choose('kernel', '6.1');
answer.kernel = shown();
choose('kernel', '');
choose('reason', '0');
answer.reason = shown();
choose('program', '0');
answer.other = shown();
choose('program', '1');
answer.own = shown();
choose('program', '');
choose('reason', '');
choose('failing', true);
answer.failing = shown();
answer.count = document.getElementById('shown').textContent;
choose('failing', false);
choose('program', '1');
answer.columns = all('#head th').filter(cell => !cell.hidden).map(cell => cell.textContent);
answer.list = all('#list > li').map(item => item.innerText.split('\\n').filter(Boolean));
"""

MANY = """
answer.rows = all('#body tr').length;
answer.words = {};
for (const cell of all('#body td')) answer.words[cell.textContent] = (answer.words[cell.textContent] ?? 0) + 1;
answer.first = shown().slice(0, 2);
const before = performance.now();
choose('kernel', '6.5.0-1');
answer.filter = performance.now() - before;
answer.shown = shown().length;
"""

NONE = """
answer.rows = all('#body tr').map(cells);
answer.focusable = all('#matrix [tabindex]').length;
document.getElementById('matrix').dispatchEvent(new KeyboardEvent('keydown', { key: 'Enter', bubbles: true }));
choose('kernel', '6.1');
answer.cell = document.getElementById('cell').innerText;
"""

HOSTILE = """
answer.names = all('#body th').map(cell => cell.textContent);
answer.programs = all('#head th').slice(1).map(cell => cell.textContent);
answer.tags = [...new Set(all('#matrix *, #reasons *, #cell *').map(part => part.localName))].sort();
all('#body td')[0].click();
answer.cell = document.getElementById('cell').innerText;
answer.source = [...new Set(all('#reasons .source').map(part => part.textContent))];
"""

LISTED = """
answer.heading = document.querySelector('h1').textContent;
answer.facts = all('dt').map(name => [name.textContent, name.nextElementSibling.textContent]);
answer.tables = all('section').map(part => [
  part.querySelector('h2').textContent,
  all(`#${part.querySelector('h2').id} + table tr`).map(cells),
]);
answer.scopes = all('th').every(cell => cell.scope === 'row' || cell.scope === 'col');
answer.labels = all('table').every(table => document.getElementById(table.getAttribute('aria-labelledby')));
answer.tags = [...new Set(all('main *').map(part => part.localName))].sort();
answer.text = document.querySelector('main').innerText;
"""


def ran(browser, folder, *words):
    """A run of the browser, whose profile is in the folder."""
    fixed = ["--headless", "--no-sandbox", "--disable-gpu", f"--user-data-dir={folder / 'profile'}"]
    return subprocess.run([browser, *fixed, *words], capture_output=True, encoding="utf-8", timeout=120)


def answer(rows, browser, name, script):
    """What a script says of a page: the page runs it behind its own, and `failed` has what went wrong. A page without a
    script gets a policy that lets it have one."""
    text = (rows.folder / name).read_text()
    if "script-src" not in text:
        text = text.replace("; base-uri", "; script-src &#39;unsafe-inline&#39;; base-uri", 1)
    write = "document.body.append(Object.assign(document.createElement('pre'), { id: 'answer', textContent: JSON.stringify(answer) }));"
    timed = "const answer = {};\nanswer.height = document.body.offsetHeight;\nanswer.laid = performance.now();\n"
    behind = f"<script>{{\n{timed}{TOOLS}{script}\nanswer.failed = failed;\n{write}\n}}</script>"
    looked = rows.folder / f"looked-{name}"
    looked.write_text(text.replace("<head>", f"<head>{WATCH}", 1).replace("</body>", f"{behind}</body>"))
    dom = ran(browser, rows.folder, "--window-size=1200,900", "--dump-dom", looked.as_uri()).stdout
    found = re.search(r'<pre id="answer">(.*?)</pre>', dom, re.DOTALL)
    return json.loads(html.unescape(found[1])) if found else {"failed": ["no answer"]}


def first_paint(rows, browser, name):
    """The time to the first paint of a page, in words."""
    looked = rows.folder / f"painted-{name}"
    looked.write_text((rows.folder / name).read_text().replace("<head>", f"<head>{PAINTS}", 1))
    shot = f"--screenshot={rows.folder / 'painted.png'}"
    said = ran(browser, rows.folder, "--enable-logging=stderr", "--window-size=1200,900", shot, looked.as_uri()).stderr
    found = re.search(r"first-paint after ([\d.]+) ms", said)
    return f"after {float(found[1]):.0f} ms" if found else "at an unknown time"


def small(rows, browser):
    """The page of the example: its table, keys, filters, and what a reader of the screen needs."""
    said = answer(rows, browser, "page.html", SMALL)
    reason = "struct cfs_rq.nr_running <byte_off> no such member"
    place = ["on_tick slot 11: r1 = 0x0 ./memdrop.bpf.c:83", "read(&running, queue->nr_running);"]
    wanted = {
        "failed": [],
        "head": ["kernel", "on_shrink", "on_tick"],
        "rows": [["btf/5.18", "ok", "ok"], ["btf/6.18", "ok", "breaks"]],
        "loads": 0,
        "stops": 1,
        "unnamed": 0,
        "scopes": True,
        "live": ["shown", "cell"],
        "role": "grid",
        "clicked": ["on_tick on btf/6.18: breaks", reason, *place],
        "stop": True,
        "entered": ["on_shrink on btf/5.18: ok", "No reason to break."],
        "kernel": ["btf/6.18"],
        "reason": ["btf/6.18"],
        "other": [],
        "own": ["btf/6.18"],
        "modified": [False, False, False],
        "unmoved": True,
        "failing": ["btf/6.18"],
        "count": "1 of 2 kernels",
        "columns": ["kernel", "on_tick"],
        "list": [[f"{reason} on 1 of 2 kernels", *place]],
    }
    for key, value in wanted.items():
        rows.expect(f"page: {key}", said.get(key), value)


def without_programs(rows, browser):
    """The page of an object without programs that count: nothing in its table has the focus."""
    said = answer(rows, browser, "none.html", NONE)
    wanted = {"failed": [], "rows": [["btf/5.18"], ["btf/6.18"]], "focusable": 0, "cell": "No programs."}
    for key, value in wanted.items():
        rows.expect(f"page without programs: {key}", said.get(key), value)


def hostile(rows, browser, names, source):
    """The page of hostile names: they are text, and none of them is run; and so is a line of source."""
    said = answer(rows, browser, "hostile.html", HOSTILE)
    rows.expect("hostile page: failed", said.get("failed"), [])
    rows.expect("hostile page: kernels", sorted(said.get("names", [])), sorted(f"kernels/{name}" for name in names))
    rows.expect("hostile page: programs", sorted(said.get("programs", [])), sorted(names))
    rows.expect("hostile page: source", said.get("source"), [source])
    tags = ["code", "h2", "li", "ol", "tbody", "td", "th", "thead", "tr", "ul"]
    rows.expect("hostile page: elements", [tag for tag in said.get("tags", []) if tag not in tags + ["p"]], [])


def tables_of(text):
    """The tables in the text of `ebpf list`: the title of each, its heads and its rows as cells."""
    found = []
    for line in text.split("\n")[2:-1]:
        if line.startswith("  "):
            found[-1][1].append(re.split(r"  +", line.strip()))
        else:
            found.append([line, []])
    return found


def listed(rows, browser, text):
    """The page of `ebpf list`: its tables are those of the text."""
    said = answer(rows, browser, "list-memdrop.o.html", LISTED)
    rows.expect("list page: failed", said.get("failed"), [])
    rows.expect("list page: heading", said.get("heading"), "memdrop.o")
    names = [name for name, _ in said.get("facts", [])]
    rows.expect("list page: facts", names, ["byte order", "license", "version", "types"])
    rows.expect("list page: tables", said.get("tables"), tables_of(text))
    rows.expect("list page: accessible", (said.get("scopes"), said.get("labels")), (True, True))


def hostile_list(rows, browser, names):
    """The page of `ebpf list` with hostile names: they are text, and none of them is run."""
    said = answer(rows, browser, "list-hostile.o.html", LISTED)
    rows.expect("hostile list page: failed", said.get("failed"), [])
    rows.expect("hostile list page: names", [name for name in names if name.strip() not in said.get("text", "")], [])
    tags = ["dd", "dl", "dt", "h1", "h2", "section", "table", "tbody", "td", "th", "thead", "tr"]
    rows.expect("hostile list page: elements", [tag for tag in said.get("tags", []) if tag not in tags], [])


def many(rows, browser, count):
    """The page of many kernels: its size, the time to its first paint, and until it is laid out."""
    said = answer(rows, browser, "large.html", MANY)
    rows.expect("large page: failed", said["failed"], [])
    rows.expect("large page: kernels", said.get("rows"), count)
    size = (rows.folder / "large.html").stat().st_size
    rows.expect("large page: below 1 MB", size < 1_000_000, True)
    words, laid, filtered = said.get("words"), said.get("laid", 0), said.get("filter", 0)
    print(f"page of {count} kernels: {size} bytes, painted first {first_paint(rows, browser, 'large.html')}, laid out after")
    print(f"  {laid:.0f} ms, a filter takes {filtered:.0f} ms; cells: {words}")


def screenshots(folder, browser, to):
    """Screenshots of the large page with a chosen cell, light and dark, and of a list."""
    to.mkdir(parents=True, exist_ok=True)
    low = "document.getElementById('frame').style.maxHeight = '14rem';"
    choose = f"<script>{low} document.querySelectorAll('#body tr')[5].children[2].click();</script></body>"
    chosen = folder / "chosen.html"
    chosen.write_text((folder / "large.html").read_text().replace("</body>", choose))
    for name, page, scheme in [
        ("check-light.png", chosen, 1),
        ("check-dark.png", chosen, 0),
        ("list-light.png", folder / "list-memdrop.o.html", 1),
    ]:
        words = ["--hide-scrollbars", "--window-size=800,640", f"--blink-settings=preferredColorScheme={scheme}"]
        ran(browser, folder, *words, f"--screenshot={Path(to).resolve() / name}", page.as_uri())
