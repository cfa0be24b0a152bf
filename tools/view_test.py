#!/usr/bin/env python3
"""Opens pages of tools/view.py in headless Chromium and acts as a user does.

usage: tools/view_test.py [PICTURE.png]

Six pages: a journal with a lost wake and the list of tasks, that list alone, replies of the lease server on one core and on
two, and two journals of tools/made_journal.py. The first of those has each mark: names, lanes, waits, wakes, spawns, parks,
clock steps, jobs and reasons are looked at in its picture and its panel. The last has 100,000 lines; it has to open within 2
seconds and to draw 60 frames in a second. Both are counted in processor time of the page's main thread, which other programs do
not lengthen. With a word, a picture of that page is kept.
"""
import glob
import http.server
import json
import os
import shutil
import subprocess
import sys
import tempfile
import threading

sys.dont_write_bytecode = True
import below
import made_journal
import view

BROWSERS = ["chromium", "chromium-browser", "google-chrome"]
POLICY = "default-src 'none'"

LOST = """spawn -> task 0
now 0
turn; spawn; join 1; pending -> turn 0; task 1; pending; idle
now 0
turn; pending -> turn 1; idle
now 0
park
drain -> drained
drop-join 0 -> dropped
"""
CORES = """1 0 0 0 session 0
2 1 0 3 held
3 bad
5 0 4 9 queued
4 1 2 12 left
"""
LIST = """monoio: the run had no turn left; the output is what it did
monoio: task 0 waits for task 1
monoio: task 1 waits for nothing: stuck
"""


def read(path):
    with open(path, encoding="utf-8", errors="replace") as file:
        return file.read()


class Server:
    """Serves one page with the test at its end, and waits for the result. Nothing but that connects the page."""

    def __init__(self, text):
        script = view.read("test.js")
        if POLICY not in text:
            sys.exit("the page does not forbid the network")
        text = text.replace(POLICY, f"{POLICY}; connect-src 'self'").replace("</body>", f"<script>{script}</script></body>")
        self.text, self.result, self.is_done = text.encode(), None, threading.Event()
        # The browser's process, and at each mark of the test the processor time of the page's main thread.
        self.browser, self.marks = None, {}
        outer = self

        class Handler(http.server.BaseHTTPRequestHandler):
            def do_GET(self):
                is_page = self.path == "/"
                self.send_response(200 if is_page else 404)
                self.send_header("Content-Type", "text/html")
                self.end_headers()
                self.wfile.write(outer.text if is_page else b"")

            def do_POST(self):
                text = self.rfile.read(int(self.headers["Content-Length"]))
                if self.path.startswith("/mark/"):
                    outer.marks[self.path[6:].replace("%20", " ")] = outer.millis_of_page()
                else:
                    outer.result = json.loads(text)
                self.send_response(204)
                self.end_headers()
                if outer.result:
                    outer.is_done.set()

            def log_message(self, *words):
                pass

        self.http = http.server.ThreadingHTTPServer(("127.0.0.1", 0), Handler)
        threading.Thread(target=self.http.serve_forever, daemon=True).start()

    def millis_of_page(self):
        """The processor time of the main threads of the browser's pages, in milliseconds."""
        parents, times = {}, {}
        for path in glob.glob("/proc/[0-9]*"):
            number = int(path[6:])
            try:
                parents[number] = int(read(f"{path}/stat").rsplit(") ", 1)[1].split()[1])
                if "--type=renderer" in read(f"{path}/cmdline"):
                    words = read(f"{path}/task/{number}/stat").rsplit(") ", 1)[1].split()
                    times[number] = int(words[11]) + int(words[12])
            except OSError:
                continue  # it has ended meanwhile
        ticks = sum(time for number, time in times.items() if self.is_below(number, parents))
        return ticks * 1000 / os.sysconf("SC_CLK_TCK")

    def is_below(self, number, parents):
        while number in parents and number != self.browser.pid:
            number = parents[number]
        return number == self.browser.pid


def start(browser, home, *words):
    flags = ["--headless", "--no-sandbox", "--disable-gpu", "--disable-software-rasterizer", "--hide-scrollbars", "--window-size=1400,800"]
    return subprocess.Popen(
        [browser, *flags, f"--user-data-dir={home}", *words],
        stdout=subprocess.DEVNULL, stderr=subprocess.DEVNULL)


def see(browser, text, wanted):
    """Opens a page in the browser, and returns what its test saw."""
    server = Server(text)
    with tempfile.TemporaryDirectory(prefix="view-", ignore_cleanup_errors=True) as home:
        address = f"http://127.0.0.1:{server.http.server_port}/#{wanted}"
        server.browser = start(browser, home, "--remote-debugging-port=0", address)
        server.is_done.wait(300)
        server.browser.terminate()
        server.browser.wait()
    server.http.shutdown()
    return {"marks": server.marks, **(server.result or {"wrong": ["the page gave no result in five minutes"]})}


def keep_picture(browser, text, picture):
    """Keeps a picture of the page as a file, as a user opens it."""
    with tempfile.TemporaryDirectory(prefix="view-", ignore_cleanup_errors=True) as home:
        path = os.path.join(home, "page.html")
        with open(path, "w", encoding="utf-8") as file:
            file.write(text)
        address = f"file://{path}#line=47410&task=1&zoom=19"
        start(browser, home, f"--screenshot={os.path.abspath(picture)}", address).wait()


def frames_are_wrong(result):
    marks = result["marks"]
    each = (marks["last frame"] - marks["first frame"]) / result["frames"]
    print(f"100,000 lines: opened after {result['opened']:.0f} ms, of which the page computed {marks['opened']:.0f}; "
          f"a frame came each {result['took'] / result['frames']:.1f} ms, of which the page computed {each:.1f}")
    wrong = [] if marks["opened"] < 2000 else ["the page did not open in 2 seconds"]
    return wrong + ([] if each < 1000 / 60 else ["the frames are not smooth"])


def main():
    browser = next(filter(None, map(shutil.which, BROWSERS)), None) or sys.exit("no Chromium: apt-get install chromium")
    with open(os.path.join(below.TOP, "crates", "lease_server", "stdout"), encoding="utf-8") as file:
        replies = file.readlines()
    large = view.page(made_journal.Machine(60, 1).run(100000), "100,000 lines")
    pages = {
        "lost": view.page((LOST + LIST).splitlines(), "a lost wake"),
        "list": view.page(LIST.splitlines(), "a list of tasks"),
        "lease": view.page(replies, "replies"),
        "cores": view.page(CORES.splitlines(), "replies of two cores"),
        "parts": view.page(made_journal.Machine(12, 2).run(3000), "3,000 lines"),
        "frames": large,
    }
    is_right = True
    for wanted, text in pages.items():
        result = see(browser, text, wanted)
        wrong = result["wrong"] + (frames_are_wrong(result) if "took" in result else [])
        print(f"{wanted}: {'; '.join(wrong) or 'as it should be'}")
        is_right = is_right and not wrong
    if len(sys.argv) > 1:
        keep_picture(browser, large, sys.argv[1])
    return 0 if is_right else 1


if __name__ == "__main__":
    sys.exit(main())
