"""The tests of the viewer: started by viewer/test, which tells where chromium and its driver are."""
import subprocess
import sys
import tempfile
from pathlib import Path

import browser
import colours
import decoding
import pages
import texts
from decoding import SCENARIOS, Checks, check_decoder

# scenarios whose bent histories are shown too; the others have too many posts to ask for the reason of each
BENT = ["four_nodes", "equivocating_liar", "false_shares", "lost_node", "version_2", "spent_rounds"]
VIEW = texts.TOP / "tools" / "view"


def view(*words):
    """Runs tools/view; answers its status and the last line on standard error. A program that is built first says so there."""
    done = subprocess.run([VIEW, *words], capture_output=True, text=True, check=False)
    return done.returncode, (done.stderr.splitlines() or [""])[-1]


def check_scenario(checks, driver, name, folder, shots):
    """The page of a scenario."""
    checks.about = name
    page = folder / f"{name}.html"
    checks.same("the status of tools/view", view(str(texts.scenario(name)), str(page))[0], 0)
    shown = browser.Shown(driver, page, shots)
    trace = texts.Trace(decoding.trace_in(page))
    ledgers = texts.ledgers(texts.program(str(texts.scenario(name))))
    check_decoder(checks, trace, lambda question: decoding.by_browser(driver, question))
    pages.check_overview(checks, shown, trace, ledgers)
    pages.check_accused(checks, shown, texts.accused(texts.program("--accuse", str(texts.scenario(name)))), name == "workers")
    pages.check_rounds(checks, shown, trace)
    pages.check_restarts(checks, shown, trace)
    pages.check_links(checks, shown, trace)
    if name != "workers":
        pages.check_filters(checks, shown, trace)
    pages.check_ledgers(checks, shown, ledgers)
    if name == "equivocating_liar":
        check_two_clicks(checks, driver, page, shots)
        pages.check_keys(checks, browser.Shown(driver, page), trace)
        shown = browser.Shown(driver, page, shots)
    checks.same("the first post of a correct node without a reason", pages.first_without_reason(shown), None)
    pages.check_window(checks, shown)
    pages.shoot_views(shown, trace)
    checks.same("errors on the console", shown.errors(), [])


def check_two_clicks(checks, driver, page, shots):
    """One click on the page that opens shows the two posts that convict the liar."""
    shown = browser.Shown(driver, page)
    shown.all('.findings a[href^="#pair"]')[0].click()
    shown.wait("return document.querySelector('#panel .pair')")
    checks.same("the posts side by side", shown.texts(".pair thead a"), ["Vpost 3", "Vpost 5"])
    shown.shots = shots
    shown.shoot("pair")


def check_bent(checks, driver, folder, shots):
    """Bent histories open at the post that the audit names, and for no correct post before it the page lacks a reason."""
    for name in BENT:
        text = texts.program("--trace", str(texts.scenario(name)))
        for answer, command in texts.bends(name):
            checks.about = f"{name}, {command}"
            path = folder / "bent.trace"
            path.write_text(texts.bent(text, command))
            checks.same("the status of tools/view", view("--trace", str(path), str(folder / "bent.html"))[0], 0)
            shown = browser.Shown(driver, folder / "bent.html", shots)
            verdict, number = answer.split()
            wanted = int(number) if verdict == "illegal" else None
            if wanted is not None:
                panel = shown.texts("#panel")[0]
                is_named = f"Post {wanted}:" in panel and "The audit names this post" in panel
                checks.true("it opens at the post that the audit names", is_named)
            checks.same("the first post of a correct node without a reason", pages.first_without_reason(shown), wanted)
            checks.same("errors on the console", shown.errors(), [])
        shown.shoot(name)
        pages.check_window(checks, shown)


def faulty_texts(text, lines):
    """Texts that are no history, each with its first line that is none, and how many posts stand before it."""
    return {
        "cut_off": ("".join(lines[:100]), 101, 99),
        "cut_in_a_line": (text[: len("".join(lines[:50])) + 9], 51, 49),
        "bad_line": ("".join([*lines[:40], "post 39 is lost\n", *lines[41:]]), 41, 39),
        "bad_hex": (text.replace("to home 10", "to home 1g", 1), 2, 0),
        "wrong_end": (text.replace("end 352", "end 351"), 354, 352),
        "more": (text + "end 352\n", 355, 352),
        "empty": ("", 1, None),
        "no_head": ("post 0\n", 1, None),
    }


def check_faults(checks, driver, folder, shots):
    """A history that is cut off, has a line that is none, or is empty: the page says which line, and shows what came before."""
    text = texts.program("--trace", str(texts.scenario("four_nodes")))
    lines = text.splitlines(keepends=True)
    for name, (bent, line, posts) in faulty_texts(text, lines).items():
        checks.about = f"the history {name}"
        path = folder / f"{name}.trace"
        path.write_text(bent)
        status, told = view("--trace", str(path), str(folder / f"{name}.html"))
        checks.same("the status", status, 0)
        checks.same("the line that the audit names", told.rpartition(" ")[2], f"line={line}")
        shown = browser.Shown(driver, folder / f"{name}.html", shots if name in ("cut_off", "empty") else None)
        shown.shoot("overview")
        checks.true(f"it names line {line}", any(f"Line {line}" in one for one in shown.texts("#overview .alarm")))
        checks.same("the posts before it", shown.run("window.shownRun ? window.shownRun.world.history.count : null"), posts)
        checks.same("errors on the console", shown.errors(), [])


def check_command(checks, folder):
    """What tools/view answers to bad input; no page and no half page is left."""
    checks.about = "tools/view"
    refused = folder / "refused.json"
    refused.write_text('{"nodes": 4, "faulty": 1, "epochs": 33}')
    scenario = str(texts.scenario("four_nodes"))
    out = folder / "out"
    out.mkdir()
    page = str(out / "page.html")
    checks.same("a scenario that is refused", view(str(refused), page), (3, "refused 7 OutOfRange top 0 epochs value=33"))
    checks.same("a scenario that is not there", view("nothing.json", page)[0], 6)
    checks.same("a history that is not there", view("--trace", "nothing", page)[0], 6)
    for words in ([], [scenario], ["--other", scenario], ["--trace", scenario], [scenario, page, page]):
        checks.same(f"{len(words)} arguments", view(*words)[0], 2)
    for target in ("/dev/full", str(out / "no" / "page.html"), str(out)):
        status, told = view(scenario, target)
        checks.same(f"a page at {target}", (status, told.startswith("tools/view: cannot write ")), (7, True))
    checks.same("what is left", list(out.iterdir()), [])


def with_browser(checks, chromium, chromedriver, shots):
    """All tests that need a browser."""
    driver = browser.start(chromium, chromedriver)
    try:
        with tempfile.TemporaryDirectory() as name:
            folder = Path(name)
            colours.check(checks)
            check_command(checks, folder)
            for scenario in SCENARIOS:
                check_scenario(checks, driver, scenario, folder, shots)
                print(f"{scenario}: {checks.count} checks so far, {checks.failed} failed", flush=True)
            check_faults(checks, driver, folder, shots)
            check_bent(checks, driver, folder, shots)
    finally:
        driver.quit()


def main():
    """The exit status."""
    checks = Checks()
    shots = texts.TOP / "viewer" / "out"
    shots.mkdir(exist_ok=True)
    try:
        with_browser(checks, sys.argv[1], sys.argv[2], shots)
    except browser.SILENCE as silence:
        checks.fail(f"the browser did not answer: {str(silence).splitlines()[0]}")
    print(f"pictures of each view are in {shots}")
    return decoding.end(checks)


if __name__ == "__main__":
    sys.exit(main())
