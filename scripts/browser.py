#!/usr/bin/env python3
"""Opens the pages that `totsenak html` makes in headless Chromium, and compares what a reader finds there with the sources.

    scripts/browser.py PROGRAM NAMES [--screens FOLDER FILE]

PROGRAM is a built totsenak, and NAMES a file with the names of sources, a line each. Of each source a page is made and
opened. It is right where the text of its `pre` is the source, with a sign for each NUL; where no element stands in it
but those that docs/HTML.md names; where no script ran; and where nothing but the page was asked for. With --screens a
page of FILE is opened in light and in dark, and a picture of each is put into FOLDER.

It needs Debian's chromium, chromium-driver and python3-selenium.
"""
import json
import os
import pathlib
import subprocess
import sys
import tempfile

from selenium import webdriver
from selenium.webdriver.chrome.options import Options
from selenium.webdriver.chrome.service import Service

# What is asked of a page: its text, the names of its elements with their attributes, and whether a script left a mark.
ASK = """
const pre = document.querySelectorAll('pre');
const names = new Set();
for (const e of document.querySelectorAll('body *')) {
    names.add(e.localName + Array.from(e.attributes, a => ' ' + a.name).join(''));
}
return {
    text: pre.length === 1 ? pre[0].textContent : null,
    names: Array.from(names),
    ran: window.pwned !== undefined,
    scripts: document.scripts.length,
    title: document.title,
};
"""

ALLOWED = {"pre class", "i class", "a id", "b title", "u title"}


def browser():
    options = Options()
    for word in ("--headless=new", "--no-sandbox", "--disable-gpu", "--window-size=900,640", "--force-device-scale-factor=1"):
        options.add_argument(word)
    options.set_capability("goog:loggingPrefs", {"performance": "ALL"})
    return webdriver.Chrome(service=Service("/usr/bin/chromedriver"), options=options)


def page_of(program, name):
    return subprocess.run([program, "html", name], stdout=subprocess.PIPE, check=True).stdout


def asked_for(driver):
    """The addresses that were asked for since the last call."""
    addresses = []
    for entry in driver.get_log("performance"):
        message = json.loads(entry["message"])["message"]
        if message["method"] == "Network.requestWillBeSent":
            addresses.append(message["params"]["request"]["url"])
    return addresses


def wrong_with(driver, path, page, source):
    """What is wrong with the page of a source, if anything is."""
    path.write_bytes(page)
    address = path.as_uri()
    driver.get(address)
    found = driver.execute_script(ASK)
    others = [a for a in asked_for(driver) if a != address and not a.endswith("/favicon.ico")]
    if found["text"] != source.replace("\0", "\u2400"):
        return "its text is not the source"
    if found["ran"] or found["scripts"]:
        return "a script ran"
    if others:
        return "it asked for " + ", ".join(others)
    if not set(found["names"]) <= ALLOWED:
        return "it has " + ", ".join(sorted(set(found["names"]) - ALLOWED))
    return None


def compare(program, names):
    wrong = 0
    driver = browser()
    with tempfile.TemporaryDirectory() as folder:
        path = pathlib.Path(folder) / "page.html"
        for name in names:
            source = pathlib.Path(name).read_bytes().decode("utf-8")
            fault = wrong_with(driver, path, page_of(program, name), source)
            if fault:
                wrong += 1
                print(f"{name}: {fault}")
    driver.quit()
    print(f"{len(names)} pages, {wrong} wrong")
    return wrong


def screens(program, folder, name):
    page = page_of(program, name)
    for scheme in ("light", "dark"):
        driver = browser()
        media = {"features": [{"name": "prefers-color-scheme", "value": scheme}]}
        driver.execute_cdp_cmd("Emulation.setEmulatedMedia", media)
        with tempfile.TemporaryDirectory() as place:
            path = pathlib.Path(place) / "page.html"
            path.write_bytes(page)
            driver.get(path.as_uri())
            driver.save_screenshot(os.path.join(folder, f"html-{scheme}.png"))
        driver.quit()


def main():
    program, names = sys.argv[1:3]
    wrong = compare(program, pathlib.Path(names).read_text().splitlines())
    if "--screens" in sys.argv:
        at = sys.argv.index("--screens")
        screens(program, sys.argv[at + 1], sys.argv[at + 2])
    sys.exit(wrong > 0)


main()
