"""Cases of `clients/viewer`: what its page shows in a headless Chromium, and what the program behind it answers."""

import json
import math
import subprocess
import sys
import time
import urllib.error
import urllib.request
from datetime import datetime, timezone
from urllib.parse import urlencode

import archappl
import pb_stream
from browser import Browser
from cases import CLIENTS, PATIENCE, Failed, run, started, want
from running import Service

SECOND = 1_000_000_000
START = 1_704_067_200
# Where the picture of the page begins and ends, as viewer.html has it.
LEFT, RIGHT = 76, 44
# The unit of each variable of a day, and its value at a second.
NUMBERS = {
    "CELL01:TEMP": ("°C", lambda at: 21 + 3 * math.sin(at / 9_000) + 0.2 * math.sin(at / 700)),
    "CELL02:TEMP": ("°C", lambda at: 23 + 2 * math.sin(at / 11_000 + 1)),
    "CELL01:CURRENT": ("mA", lambda at: 401 - (at % 14_400) / 4_000),
}
MODES = ((0, "injecting"), (9_000, "stored beam"), (61_000, "shut down"))


class Viewer:
    """The program that serves the page."""

    def __init__(self, service):
        command = [sys.executable, CLIENTS / "viewer", "--server", service.address, "--port", "0"]
        self.process = started(command, stderr=subprocess.PIPE, text=True)
        self.address = self.process.stderr.readline().split()[1]

    def __enter__(self):
        return self

    def __exit__(self, *_):
        self.process.terminate()
        self.process.wait()
        self.process.stderr.close()

    def asked(self, path, **query):
        """The status and what is answered."""
        try:
            with urllib.request.urlopen(f"{self.address}{path}?{urlencode(query)}", timeout=PATIENCE) as reply:
                return reply.status, json.load(reply)
        except urllib.error.HTTPError as error:
            with error:
                return error.code, json.load(error)


def iso(seconds):
    """The text of a moment as the page has it."""
    return datetime.fromtimestamp(seconds, timezone.utc).isoformat(timespec="milliseconds").replace("+00:00", "Z")


def day(service, minutes=1_440):
    """A day of three variables, brought by `ingest` with their units."""
    service.stop()
    for name, (unit, value) in NUMBERS.items():
        lines = []
        for number in range(minutes):
            found = value(60 * number)
            severity = (2 if found > 24.6 else 1) if 24.2 < found < 30 else 0
            lines.append(f"{name} {START + 60 * number} {found} {severity} {3 * severity}\n")
        service.archappl("ingest", data=run("import", "--unit", unit, data="".join(lines).encode())[0])
    lines = "".join(f"CELL01:MODE {START + at} '{text}'\n" for at, text in MODES)
    service.archappl("ingest", data=run("import", data=lines.encode())[0])
    service.start()


def answers(_, service):
    """What the page is answered: all samples where there are few, and few that have the ends where there are many."""
    number, header = 40_000, pb_stream.Header(6, "V:A", 2024)
    values = [math.sin(second / 1_000) for second in range(number)]
    values[14_321], values[37_777] = 9.0, float("nan")
    archappl.archive(service.address, "V:A", "SCALAR_DOUBLE")
    archappl.send(service.address, [pb_stream.chunk(header, [((START + second) * SECOND, value, 2 * (second == 500))
                                                             for second, value in enumerate(values)])])
    with Viewer(service) as viewer:
        want("names", viewer.asked("/names"), (200, ["V:A"]))
        interval = {"from": iso(START + 100), "to": iso(START + 109)}
        status, few = viewer.asked("/samples", pv="V:A", columns=100, **interval)
        want("few samples", (status, few["count"]), (200, 11))
        want("their times", few["times"], [1000.0 * (START + at) for at in range(99, 110)])
        want("their values", few["values"], values[99:110])
        whole = {"pv": "V:A", "from": iso(START), "to": iso(START + number)}
        _, many = viewer.asked("/samples", columns=200, **whole)
        want("how many there are", (many["count"], many["width"]), (number, None))
        want("fewer are sent", 400 < len(many["times"]) <= 5 * 201, True)
        found = [value for value in many["values"] if value is not None]
        want("the greatest", max(found), 9.0)
        want("the least", min(found), min(value for value in values if value == value))
        want("the severity", 2 in many["severities"], True)
        firsts(viewer, values, whole)
        _, same = viewer.asked("/samples", columns=100, all=1, **whole)
        want("all are read", (same["count"], same["width"], max(value for value in same["values"] if value is not None)), (number, None, 9.0))
        _, new = viewer.asked("/newest", pv="V:A", since=str((START + number - 3) * SECOND))
        want("new samples", new["values"], values[-2:])
        archappl.archive(service.address, "V:U", "SCALAR_DOUBLE")
        header = pb_stream.Header(6, "V:U", 2024)
        units = ([("EGU", "mm"), ("PREC", "2")], [], [])
        samples = [((START + at) * SECOND, 1.0, 0, 0, pairs) for at, pairs in enumerate(units)]
        archappl.send(service.address, [pb_stream.chunk(header, samples)])
        _, late = viewer.asked("/samples", pv="V:U", columns=100, **{"from": iso(START + 2), "to": iso(START + 2)})
        want("its unit and decimals", (late["count"], late["unit"], late["decimals"]), (2, "mm", 2))
        want("its name", viewer.asked("/name", pv="V:U"), (200, {"name": "V:U"}))
        archappl.renamed(service.address, "V:U", "V:W")
        want("its new name", viewer.asked("/name", pv="V:U"), (200, {"name": "V:W"}))
        want("no such variable", viewer.asked("/newest", pv="V:B")[0], 502)
        want("not of the form", viewer.asked("/samples", pv="V:A")[0], 400)
        want("nothing else", viewer.asked("/mgmt/bpl/flush")[0], 404)
        request = urllib.request.Request(viewer.address + "/names", headers={"Host": "example.com"})
        try:
            urllib.request.urlopen(request, timeout=PATIENCE).close()
            raise Failed("a page of another name was answered")
        except urllib.error.HTTPError as error:
            want("another name", error.code, 403)
            error.close()


def firsts(viewer, values, whole):
    """Of far more samples than columns the first one of each column is sent, with the last one before the interval and the interval's last."""
    late = START + 100
    _, found = viewer.asked("/samples", columns=100, **(whole | {"from": iso(late)}))
    width, kept = 399, {}
    for second in range(late, START + len(values)):
        kept.setdefault(second // width, second)
    wanted = [late - 1, *kept.values(), START + len(values) - 1]
    want("the seconds of a column", found["width"], width)
    want("the first ones", found["times"], [1000.0 * second for second in wanted])
    want("their values", found["values"], [values[second - START] for second in wanted])
    want("what follows them", found["last"], str(wanted[-1] * SECOND))
    _, short = viewer.asked("/samples", columns=10_000, **(whole | {"to": iso(START + 9_999)}))
    want("columns of less than a second", (short["count"], short["width"]), (10_000, None))


def shown_rows(browser):
    """The rows below the picture: name, value, unit, time, severity and number of samples."""
    return browser.value("[...document.querySelectorAll('#legend tr')].map("
                         "row => [...row.cells].slice(1).map(cell => cell.textContent))")


def page(_, service):
    """The page shows what it was linked to, zooms where it is dragged over, goes back, and follows new samples."""
    day(service)
    words = [("from", iso(START)), ("to", iso(START + 86_400))] + [("pv", name) for name in [*NUMBERS, "CELL01:MODE"]]
    with Viewer(service) as viewer, Browser() as browser:
        browser.ask("Page.navigate", url=f"{viewer.address}#{urlencode(words)}")
        browser.until("all are shown", "document.querySelectorAll('#legend tr').length === 4")
        rows = shown_rows(browser)
        last = 21 + 3 * math.sin(86_340 / 9_000) + 0.2 * math.sin(86_340 / 700)
        want("the first row", rows[0][:4], ["CELL01:TEMP", repr(last), "°C", iso(START + 86_340)])
        want("the last row", rows[3][:4], ["CELL01:MODE", "shut down", "", iso(START + 61_000)])
        want("how many", [row[5] for row in rows], ["1,440", "1,440", "1,440", "3"])
        want("the names", browser.value("document.querySelectorAll('#names input:checked').length"), 4)
        colors = browser.value("new Set(paper.getImageData(0, 0, canvas.width, canvas.height).data).size")
        want("it is drawn", colors > 20, True)
        zoomed(browser)
        unknown(browser, viewer, words)
        left_out(browser, viewer, service)
        followed(browser, viewer, service)


def zoomed(browser):
    """Dragging over the middle half shows that; a click on Back shows the whole again."""
    box = browser.value("canvas.getBoundingClientRect().toJSON()")
    begin, end = box["left"] + LEFT, box["left"] + box["width"] - RIGHT
    quarter = (end - begin) / 4
    browser.drag(begin + quarter, end - quarter, box["top"] + box["height"] / 2)
    browser.until("fewer are shown", "document.querySelector('#legend tr').cells[6].textContent !== '1,440'")
    for field, wanted in (("from", START + 21_600), ("to", START + 64_800)):
        found = browser.value(f"Date.parse(document.getElementById('{field}').value)") / 1_000
        if abs(found - wanted) > 2 * 21_600 / quarter:  # two columns of the picture
            raise Failed(f"the zoom's {field} is {iso(found)}, and not {iso(wanted)}")
    number = int(shown_rows(browser)[0][5])
    want("the samples of half a day and the one before", 719 <= number <= 723, True)
    browser.value("document.getElementById('back').click()")
    browser.until("the whole is shown again", "document.querySelector('#legend tr').cells[6].textContent === '1,440'")
    want("from", browser.value("document.getElementById('from').value"), iso(START))


def unknown(browser, viewer, words):
    """Of a link with a variable that isn't there the others are shown, and that one is named until it is left out."""
    browser.ask("Page.navigate", url=f"{viewer.address}?unknown#{urlencode([('pv', 'NO:SUCH'), *words])}")
    browser.until("the others are shown", "document.querySelectorAll('#legend tr').length === 4")
    want("it is named", browser.value("document.getElementById('told').innerText"),
         "NO:SUCH: E26: the archive has no such variable")
    want("it is marked", browser.value("document.querySelector('#names .unknown').innerText"), "NO:SUCH")
    browser.value("document.querySelector('#names .unknown input').click()")
    browser.until("nothing is wrong any more", "document.getElementById('told').className === ''")
    want("it is gone", browser.value("document.querySelectorAll('#names .unknown').length"), 0)
    want("the others stay", len(shown_rows(browser)), 4)


def left_out(browser, viewer, service):
    """Of far more samples than columns the first one of each column is shown, which the picture says; the key a shows all."""
    length, peak, header = 3 * 86_400, 100_001, pb_stream.Header(6, "MANY:A", 2024)
    samples = [((START + at) * SECOND, 50.0 if at == peak else math.sin(at / 9_000), 0, 0) for at in range(length)]
    archappl.archive(service.address, "MANY:A", "SCALAR_DOUBLE")
    archappl.send(service.address, [pb_stream.chunk(header, samples[at : at + 10_000]) for at in range(0, length, 10_000)])
    words = [("from", iso(START)), ("to", iso(START + length)), ("pv", "MANY:A")]
    browser.ask("Page.navigate", url=f"{viewer.address}?many#{urlencode(words)}")
    browser.until("the first ones are shown", "document.querySelectorAll('#legend tr').length === 1 && series.get('MANY:A').width")
    width = -(-length // browser.value("Math.round(canvas.clientWidth)"))
    kept = {(START + at) // width: START + at for at in reversed(range(length))}
    wanted = sorted({*kept.values(), START + length - 1})
    want("the moments", browser.value("series.get('MANY:A').times"), [1000 * second for second in wanted])
    want("how many", shown_rows(browser)[0][5], f"{len(wanted):,}, first sample of each {width} s")
    want("it is said on the picture", f"first sample of each {width} s" in drawn_texts(browser), True)
    for kind in ("keyDown", "keyUp"):
        browser.ask("Input.dispatchKeyEvent", type=kind, key="a", text="a" * (kind == "keyDown"))
    browser.until("all are shown", "series.get('MANY:A').width === null")
    want("how many there are", shown_rows(browser)[0][5], f"{length:,}, thinned")
    want("the greatest", browser.value("Math.max(...series.get('MANY:A').values)"), 50)
    want("nothing is said on the picture", [text for text in drawn_texts(browser) if "first" in text], [])
    want("a link keeps it", browser.value("new URLSearchParams(location.hash.slice(1)).get('all')"), "1")


def drawn_texts(browser):
    """The texts of the picture."""
    return browser.value("""(() => {
        const told = [];
        paper.fillText = (...words) => { told.push(words[0]); };
        draw();
        delete paper.fillText;
        draw();
        return told;
    })()""")


def followed(browser, viewer, service):
    """New samples come by themselves."""
    archappl.archive(service.address, "LIVE:A", "SCALAR_INT")
    browser.ask("Page.navigate", url=f"{viewer.address}?live#pv=LIVE:A&live=1")
    browser.until("it is chosen", "document.querySelectorAll('#legend tr').length === 1 && view.live")
    for number in (41, 42):
        now = time.time_ns()
        header = pb_stream.Header(5, "LIVE:A", pb_stream.year_of(now))
        archappl.send(service.address, [pb_stream.chunk(header, [(now, number, 1, 4)])])
        shown = f"document.querySelector('#legend tr').cells[2].textContent === '{number}'"
        browser.until("the new value is shown", shown)
    want("its severity", shown_rows(browser)[0][4:], ["MINOR", "2"])


def cases(program, has_browser):
    """The cases, each with a service of its own."""

    def over(work):
        def case(rng, _):
            with Service(program) as service:
                work(rng, service)

        case.__name__ = work.__name__
        return case

    return [(over(answers), 1)] + [(over(page), 1)] * has_browser
