"""What the tests ask of the page of a run. The wanted values are made of the program's texts, not by the page's code."""
import re

import deal

# The labels of the cells of each grid.
GRIDS = """[...document.querySelectorAll('.grid')].map(
  (one) => [...one.querySelectorAll('td a')].map((link) => link.getAttribute('aria-label')))"""
# The links to two posts that contradict each other, with the texts in which they stand.
PAIRS = """[...document.querySelectorAll('.findings a[href^="#pair"]')].map(
  (link) => [link.closest('li').textContent, link.getAttribute('href')])"""
# Sets a filter, as a user does.
CHOOSE = """(() => {
  const select = document.getElementById(arguments[0]);
  select.value = arguments[1];
  select.dispatchEvent(new Event('change'));
})()"""
# Of each epoch the columns of its ledgers: the nodes, the style of the cell, and the batches with their transactions.
LEDGERS = """(() => {
  const listed = (li) => [...li.querySelectorAll('ul li')].map((one) => [one.title || one.textContent, one.className]);
  const column = (head, cell) => {
    for (const details of cell.querySelectorAll('details')) {
      details.open = true;
      details.dispatchEvent(new Event('toggle'));
    }
    const batches = [...cell.querySelectorAll('.batches > li')].map((li) => [li.textContent, listed(li)]);
    return [head.textContent, cell.className, batches];
  };
  return [...document.querySelectorAll('.ledger')].map((section) => {
    const cells = section.querySelectorAll('tbody td');
    return [...section.querySelectorAll('thead th')].map((head, at) => column(head, cells[at]));
  });
})()"""
# What has the focus.
FOCUS = "document.activeElement.getAttribute('href') || document.activeElement.dataset.word || ''"
# How many things can be used and have no name for a screen reader.
UNNAMED = """[...document.querySelectorAll('button, select, input, canvas')].filter((one) => {
  const isLabelled = one.getAttribute('aria-label') || (one.labels && one.labels.length > 0) || one.textContent.trim();
  return !isLabelled && one.getAttribute('aria-hidden') !== 'true';
}).length"""
# The rounds that the rows of posts tell, and the first post with which each actor began again.
ROUNDS = "arguments[0].map((k) => window.shownRun.world.lanes.roundText(k))"
RESTARTS = """window.shownRun.world.restarts.filter(({ posts }) => posts.length > 0).map(
  ({ node, actor, posts }) => [node, actor, posts[0]])"""
# The first post of a correct node for which the page finds no reason.
WITHOUT_REASON = """(() => {
  const { history, rules } = window.shownRun.world;
  for (let k = 0; k < history.count; k += 1) if (!history.isLiar(history.from[k]) && !rules.why(k).met) return k;
  return null;
})()"""
LANE = re.compile(r"node (\d+), lane (\d+): (.*)")
DECIDED = re.compile(r"decided ([01]) in round (\d+)")


def grid(shown, epochs):
    """Of each epoch, node and lane the state that the overview tells, and the epochs that desks closed."""
    shown.wait(f"return document.querySelectorAll('.grid').length === {epochs}")
    lanes, closed = {}, set()
    tables = shown.run(GRIDS)
    for epoch, labels in enumerate(tables):
        for label in labels:
            lane = LANE.fullmatch(label)
            if lane:
                lanes[epoch, int(lane[1]), int(lane[2])] = lane[3]
            elif label.endswith(" closed") and not label.endswith("not closed"):
                closed.add((epoch, int(re.search(r"node (\d+)", label)[1])))
    return lanes, closed


def round_of(trace, place, bit):
    """The first round in which a lane picked its bit alone and whose dealt coin is the bit."""
    epoch, _, lane = place
    return next(r for r, picked in sorted(trace.picks(place)) if picked == bit and deal.coin(trace, epoch, lane, r) == bit)


def check_overview(checks, shown, trace, ledgers):
    """The bits and rounds that lanes decided, and the epochs that desks closed."""
    lanes, closed = grid(shown, trace.epochs)
    decided = {place: DECIDED.match(state) for place, state in lanes.items()}
    told = {place: (int(found[1]), int(found[2])) for place, found in decided.items() if found}
    correct = {place: bit for place, bit in trace.decisions().items() if place[1] not in trace.liars}
    checks.same("the decisions", {place: bit for place, (bit, _) in told.items() if place[1] not in trace.liars}, correct)
    few = dict(list(correct.items())[:: max(1, len(correct) // 60)])
    checks.same("the rounds of the decisions", {place: told.get(place, (0, None))[1] for place in few},
                {place: round_of(trace, place, bit) for place, bit in few.items()})
    checks.same("the closed epochs in the posts", closed, set(trace.closings()))
    printed = {(epoch, node) for node, lines in enumerate(ledgers) if lines is not None
               for epoch in range(sum(line.startswith("epoch ") for line in lines))}
    checks.same("the closed epochs in the ledgers", {place for place in closed if place[1] not in trace.liars}, printed)


def check_rounds(checks, shown, trace):
    """The row and the panel of a DECIDED tell the round in which the lane decided, which the vote does not name."""
    posts = {}
    for k, (node, lane, _, vote) in enumerate(trace.posts):
        if node not in trace.liars and vote and vote["kind"] == "DECIDED":
            posts[k] = (vote["epoch"], node, lane), vote["bit"]
    few = dict(list(posts.items())[:: max(1, len(posts) // 20)])
    wanted = {k: f"{round_of(trace, place, bit)}" for k, (place, bit) in few.items()}
    checks.same("the rounds of DECIDED", dict(zip(few, shown.run(ROUNDS, list(few)))), wanted)
    post, number = next(iter(wanted.items()))
    shown.go(f"post-{post}")
    told = shown.texts("#panel .fields tr")[-1]
    checks.same("the round in the panel of a DECIDED", told.partition(":")[0], f"round{number}")


def check_restarts(checks, shown, trace):
    """Where actors began again the first of their posts that stands twice is."""
    seen, twice = set(), {}
    for k, (node, actor, *_) in enumerate(trace.posts):
        said = node, actor, trace.bytes[k]
        if said in seen and node not in trace.liars:
            twice.setdefault((node, actor), k)
        seen.add(said)
    found = {(node, actor): post for node, actor, post in shown.run(RESTARTS)}
    checks.same("where actors began again", found, twice)
    for post in twice.values():
        checks.same("the mark of its row", shown.run("window.shownRun.world.marks.get(arguments[0])", post), "restart")
        links = shown.run("document.querySelectorAll(`#overview .nodes-part a[href='#post-${arguments[0]}']`).length", post)
        checks.same("the link of the overview to it", links, 1)
        shown.go(f"post-{post}")
        checks.true("its panel tells of the stop", "Here the actor begins again" in shown.texts("#panel")[0])


def check_accused(checks, shown, wanted, has_workers):
    """The accused nodes and their posts; with workers each run has other posts."""
    links = shown.run(PAIRS)
    found = [(int(re.search(r"Node (\d+)", text)[1]), *map(int, re.findall(r"\d+", href))) for text, href in links]
    if has_workers:
        checks.same("the accused nodes", [node for node, *_ in found], [node for node, *_ in wanted])
    else:
        checks.same("the accused nodes and posts", found, wanted)


def shown_count(shown):
    """How many posts the run view says that it shows, and of how many."""
    return tuple(int(number.replace(",", "")) for number in re.findall(r"[\d,]+", shown.texts("#shown")[0]))


def choose(shown, name, value):
    """Sets a filter, as a user does."""
    shown.run(CHOOSE, f"filter-{name}", value)


def is_kind(value):
    """Whether a choice of the filter is a kind; the others are groups of kinds, and all."""
    return value == "no vote" or value.isupper()


def listed(shown):
    """The numbers of the posts that are shown."""
    return shown.run("[...window.shownRun.page.run.view.list]")


def check_filters(checks, shown, trace):
    """The filters leave what they say."""
    shown.go("run")
    shown.run("document.getElementById('show-all').click()")
    checks.same("the number of posts", shown_count(shown), (len(trace.posts),) * 2)
    for kind in filter(is_kind, shown.run("[...document.getElementById('filter-kind').options].map((one) => one.value)")):
        choose(shown, "kind", kind)
        checks.same(f"the number of {kind}", shown_count(shown)[0], trace.kinds().get(kind, 0))
    choose(shown, "kind", "")
    last = trace.nodes - 1
    tests = {
        ("epoch", str(trace.epochs - 1)): lambda post: post[3] and post[3]["epoch"] == trace.epochs - 1,
        ("lane", "1"): lambda post: post[1] == 1,
        ("lane", "desk"): lambda post: post[1] == trace.nodes,
        ("node", "1"): lambda post: post[0] == 1,
        ("node", f"to{last}"): lambda post: reaches(post, last, trace.nodes),
        ("round", "0"): lambda post: post[3] and post[3].get("round") == 0,
    }
    for (name, value), test in tests.items():
        choose(shown, name, value)
        checks.same(f"the posts with {name} {value}", listed(shown), [k for k, post in enumerate(trace.posts) if test(post)])
        choose(shown, name, "")
    choose(shown, "kind", "BVAL")
    choose(shown, "node", "0")
    both = [k for k, post in enumerate(trace.posts) if post[3] and post[3]["kind"] == "BVAL" and post[0] == 0]
    checks.same("the posts with two filters", listed(shown), both)
    shown.run("document.getElementById('show-all').click()")


def reaches(post, node, nodes):
    """Whether the address of a post reaches a node; only for scenarios that drop nothing."""
    sender, actor, to, _ = post
    return {"all": actor <= nodes, "home": sender == node and actor <= nodes, f"node {node}": actor <= nodes}.get(to, False)


def page_ledgers(shown, nodes):
    """The ledgers that the page shows, as lines like those of a run."""
    shown.go("ledgers")
    cells = shown.run(LEDGERS)
    lines = {node: [] for node in nodes}
    for epoch, groups in enumerate(cells):
        for head, style, batches in groups:
            for node in map(int, re.findall(r"\d+", head)):
                if style != "open":
                    lines[node] += ledger_lines(epoch, batches)
    return lines


def ledger_lines(epoch, batches):
    """The lines of an epoch."""
    lines = [f"epoch {epoch} batches {len(batches)}"]
    for text, transactions in batches:
        node, count = re.match(r"batch of node (\d+): (\d+) transaction", text).groups()
        lines.append(f"batch {node} txs {count}")
        lines += [f"tx {re.match('[0-9a-f]+', shown)[0]}" for shown, style in transactions if style != "known"]
    return lines


def check_ledgers(checks, shown, ledgers):
    """The ledgers are those that the run prints."""
    wanted = {node: lines for node, lines in enumerate(ledgers) if lines is not None}
    checks.same("the ledgers", page_ledgers(shown, wanted), wanted)


def check_links(checks, shown, trace):
    """From a CLOSED links lead to a VAL."""
    (epoch, node), post = next(iter(trace.closings().items()))
    shown.go(f"post-{post}")
    for kind in ("DELIVERED", "ECHO", "VAL"):
        links = shown.all(f"#panel a.post[data-word={kind}]")
        if not links:
            checks.fail(f"no link from the post before to a {kind}")
            return
        links[0].click()
        shown.wait(f"return document.querySelector('#panel h2').textContent.includes('{kind}')")
    found = int(re.search(r"Post (\d+)", shown.texts("#panel h2")[0])[1])
    checks.same(f"the end of the links from the CLOSED of node {node} in epoch {epoch}", trace.posts[found][3]["kind"], "VAL")


def check_keys(checks, shown, trace):
    """The keyboard reaches views, grid, picture, panel, filters and the number of a post."""
    reached = set()
    for _ in range(60):
        shown.press("TAB")
        reached.add(shown.run(FOCUS).partition("-")[0])
        if shown.run("document.activeElement.closest('.grid') !== null"):
            break
    wanted = {"#overview", "#run", "#ledgers", "#words", "liar", "#lane"}
    checks.same("what Tab does not reach of views, words and grid", wanted - reached, set())
    shown.press("ARROW_RIGHT", "ARROW_DOWN")
    checks.same("arrows move in the grid", shown.run("document.activeElement.getAttribute('href')"), "#lane-0-1-1")
    shown.press("ENTER")
    shown.wait("return document.querySelector('#panel h2')?.textContent === 'Lane 1 of node 1, epoch 0'")
    shown.press("/")
    checks.same("/ leads to the number", shown.run("document.activeElement.id"), "number")
    shown.press("5", "ENTER")
    checks.same("a number selects its post", shown.run("location.hash"), "#post-5")
    shown.press("ARROW_DOWN")
    checks.same("an arrow selects the next", shown.run("location.hash"), "#post-6")
    shown.press("ARROW_UP", "ARROW_UP")
    checks.same("an arrow selects the one before", shown.run("location.hash"), "#post-4")
    top = shown.run("window.shownRun.page.run.view.top")
    shown.press("PAGE_DOWN")
    checks.true("page down scrolls", shown.run("window.shownRun.page.run.view.top") > top)
    shown.press("END", "HOME", "+", "-")
    checks.same("home scrolls to the top", shown.run("window.shownRun.page.run.view.top"), 0)
    shown.press("ENTER")
    checks.same("Enter leads to the panel", shown.run("document.activeElement.id"), "panel")
    shown.press("TAB")
    checks.true("Tab leads on to a link of the panel", shown.run("document.activeElement.matches('#panel *')"))
    shown.press("ESCAPE")
    checks.same("Escape leads back to the picture", shown.run("document.activeElement.id"), "picture")
    unnamed = shown.run(UNNAMED)
    checks.same("what can be used and has no name", unnamed, 0)
    checks.same("posts after the keys", len(trace.posts), shown_count(shown)[1])


def first_without_reason(shown):
    """The first post of a correct node for which the page finds no reason, or None."""
    return shown.run(WITHOUT_REASON)


def check_window(checks, shown):
    """Views and panels scroll within the window: the page as a whole does not."""
    for view in ("overview", "run", "ledgers", "words", "lane-0-2-2", "desk-0-2"):
        shown.go(view)
        checks.true(f"{view} stays in the window", shown.run("document.documentElement.scrollHeight <= innerHeight"))


def shoot_views(shown, trace):
    """Keeps a picture of each view."""
    for view in ("overview", "run", "ledgers", "words"):
        shown.go(view)
        shown.shoot(view)
    shown.go(f"post-{next(iter(trace.closings().values()))}")
    shown.shoot("post")
    shown.go("lane-0-0-1")
    shown.shoot("lane")
