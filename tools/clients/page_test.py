"""page_test FOLDER: the pages that tools/with-clients has drawn there, clicked and typed at in Chromium; screenshots stay in FOLDER."""

import os
import sys

from browser import Browser

folder = sys.argv[1]
checked = 0


def same(found, wanted, what):
    """Counts a check that holds, and ends with words where it does not."""
    global checked
    if found != wanted:
        raise SystemExit(f"{what}: {found!r}, and not {wanted!r}")
    checked += 1


def holds(test, what):
    same(bool(test), True, what)


def layers():
    """The layers that are on, by what can be seen of them."""
    seen = "e => [...e.children].some(one => getComputedStyle(one).display !== 'none')"
    return b.js(f"[...document.querySelectorAll('#picture svg g[class]')].filter({seen}).map(e => e.classList[0])")


def lit():
    return b.js("[...document.querySelectorAll('.lit')].map(e => e.dataset.id + (e.tagName === 'TR' ? ' row' : ''))")


def view():
    """What is seen of the picture, to a thousandth."""
    words = b.js("document.querySelector('#picture svg').getAttribute('viewBox')").split()
    return [round(float(word), 3) for word in words]


def focused():
    name = "e => e.dataset.layer || e.dataset.id || e.id || e.tagName.toLowerCase()"
    return b.js(f"({name})(document.activeElement)")


def names_heard():
    """What somebody hears who does not see the page: roles and names."""
    nodes = b.call("Accessibility.getFullAXTree")["nodes"]
    value = lambda node, key: node.get(key, {}).get("value", "")
    return [(value(node, "role"), value(node, "name")) for node in nodes if not node["ignored"]]


b = Browser()
try:
    version = b.call("Browser.getVersion")["product"]

    # The page of a net: its layers, each switched by a click on its words.
    b.open(f"{folder}/eight-pins.html")
    b.shot(f"{folder}/whole.png")
    all_layers = b.js("[...document.querySelectorAll('input[data-layer]')].map(e => e.dataset.layer)")
    same(all_layers, ["graph", "terminal", "refined", "wires", "slid", "numbers"], "the layers of eight pins")
    same(layers(), ["refined", "wires", "numbers"], "the layers that are on at first")
    for layer in all_layers:
        before = layer in layers()
        b.click(*b.middle(f"label:has(input[data-layer={layer}])"))
        same(layer in layers(), not before, f"{layer} after a click")
        b.click(*b.middle(f"input[data-layer={layer}]"))
        same(layer in layers(), before, f"{layer} after another")

    # Every control by Tab alone, in the order in which they are seen; the first one is one Tab away.
    b.open(f"{folder}/eight-pins.html")
    order = []
    for _ in range(12):
        b.key("Tab")
        order.append(focused())
    same(order, all_layers + ["nearer", "further", "whole", "svg", "summary", "edge-1"], "the order of Tab")
    same(lit(), ["edge-1", "wire-1", "wire-2", "edge-1 row"], "what the first row lights")
    b.key("ArrowDown")
    same(focused(), "edge-2", "down in a table")
    holds("edge-2 row" in lit() and "edge-1 row" not in lit(), "the second row is lit and the first is not")
    b.key("ArrowUp")
    b.key("ArrowUp")
    same(focused(), "edge-1", "up, and no further than the first row")
    b.js("document.querySelector('input[data-layer=graph]').focus()")
    b.key(" ")
    holds("graph" in layers(), "the space bar switches a layer")

    # Zoom and pan by keys, with limits.
    b.open(f"{folder}/eight-pins.html")
    start = view()
    b.js("document.querySelector('#picture svg').focus()")
    b.key("+")
    holds(view()[2] < start[2], "plus is nearer")
    for _ in range(40):
        b.key("+")
    holds(abs(view()[2] - start[2] / 100) < 0.01, "no nearer than a hundredth")
    b.shot(f"{folder}/nearest.png")
    b.key("0")
    same(view(), start, "0 is the whole net")
    for _ in range(20):
        b.key("-")
    holds(abs(view()[2] - start[2] * 2) < 0.01, "no further than twice")
    b.key("0")
    b.key("ArrowRight")
    holds(view()[0] > start[0] and abs(view()[1] - start[1]) < 0.01, "right")
    for _ in range(40):
        b.key("ArrowRight")
    holds(abs(view()[0] + view()[2] / 2 - start[0] - start[2]) < 0.01, "the middle stays in the picture")
    b.js("document.querySelector('#whole').click()")
    same(view(), start, "the button for the whole net")
    x, y = b.middle("#picture")
    b.mouse("mouseWheel", x, y, deltaX=0, deltaY=-120)
    holds(view()[2] < start[2], "the wheel is nearer")
    b.key("0")
    same(view(), start, "0 after the wheel, the picture still has the keys")
    b.mouse("mousePressed", x, y, button="left", buttons=1, clickCount=1)
    b.mouse("mouseMoved", x + 60, y + 30, button="left", buttons=1)
    b.mouse("mouseReleased", x + 60, y + 30, button="left", clickCount=1)
    holds(view()[0] < start[0] and view()[1] < start[1], "dragging moves")
    b.mouse("mouseMoved", x, y)
    held = view()
    b.mouse("mouseMoved", x + 90, y)
    same(view(), held, "a button that was let go")
    b.key("0")

    # Pointing lights an entry in the picture and in its table, and nothing else.
    b.mouse("mouseMoved", *b.middle("#picture circle[data-id=pin-3]"))
    same(lit(), ["pin-3", "pin-3 row"], "pointing at a pin")
    holds(b.js("document.querySelector('tr[data-id=pin-3]').closest('details').open"), "its table is open")
    b.shot(f"{folder}/lit.png")
    b.mouse("mouseMoved", 5, 5)
    same(lit(), [], "pointing at nothing")
    b.open(f"{folder}/eight-pins.html#slid-2")
    same(lit(), ["slid-2", "slid-2 row"], "a link to an edge of the slid tree, whose layer is off")
    b.open(f"{folder}/eight-pins.html#nothing")
    same(lit(), [], "a link to nothing")

    # Names for those who do not see it.
    heard = names_heard()
    named = {"image", "img", "checkbox", "button", "graphics-symbol", "columnheader", "DisclosureTriangle"}
    same([one for one in heard if one[0] in named and not one[1]], [], "controls and shapes without a name")
    names = {name for _, name in heard}
    for wanted in ["graph", "nearer", "further", "whole net", "pin 3: 13, 9", "macro 1: 6 4 11 14", "8 pins", "layers"]:
        holds(wanted in names, f"{wanted} is heard")
    holds(any(role == "group" and name.startswith("the net; ") for role, name in heard), "the picture is heard")

    # A best tree, a tree of another router, another net's metal and the difference, loads and delays.
    b.open(f"{folder}/loads.html")
    same(layers(), ["wires", "best", "numbers"], "--best puts its layer on")
    head = "[...document.querySelector('tr[data-id=pin-1]').closest('table').querySelectorAll('th')].map(e => e.innerText)"
    same(b.js(head)[1:], ["place", "load", "delay"], "the table of pins")
    holds(b.js("document.querySelector('header p').innerText.includes('delays from 0, 0')"), "from where delays are")
    b.shot(f"{folder}/loads.png")
    b.open(f"{folder}/beside.html")
    same(layers(), ["difference", "wires", "beside", "numbers"], "the layers beside another net")
    same(b.js("document.querySelectorAll('.difference path').length > 0"), True, "there is a difference")
    holds("wires of bare.txt, " in b.js("document.querySelector('aside').innerText"), "the other net's wires are listed")
    b.mouse("mouseMoved", *b.middle("tr[data-id=difference-1]"))
    same(lit(), ["difference-1", "difference-1 row"], "a difference is lit by its row")
    b.shot(f"{folder}/beside.png")
    b.open(f"{folder}/tree.html")
    holds("tree" in layers() and b.js("document.querySelectorAll('.tree path.red').length") == 1, "a failing tree in red")
    holds(b.js("(e => e.scrollWidth <= e.clientWidth)(document.querySelector('aside'))"), "reasons are not cut off")
    b.shot(f"{folder}/tree.png")
    b.open(f"{folder}/refused.html")
    holds(b.js("document.querySelectorAll('tr.red').length") == 2, "two macros to blame")
    b.shot(f"{folder}/refused.png")
    b.open(f"{folder}/largest.html")
    b.shot(f"{folder}/largest.png")

    # On a small screen nothing is cut off: the page is as wide as the screen, and each table scrolls for itself.
    metrics = {"width": 390, "height": 800, "deviceScaleFactor": 1, "mobile": True}
    b.call("Emulation.setDeviceMetricsOverride", **metrics)
    b.open(f"{folder}/beside.html")
    same(b.js("document.documentElement.scrollWidth"), 390, "the width of a page on a small screen")
    b.shot(f"{folder}/small.png")
    holds(b.middle("#picture")[1] < 800 and b.js("document.querySelector('#picture').clientHeight") > 150, "the picture is seen")

    # Nothing is asked of a network, and nothing goes wrong in silence.
    asked = [e["params"]["request"]["url"] for e in b.events if e.get("method") == "Network.requestWillBeSent"]
    same([url for url in asked if not url.startswith(("file:", "about:"))], [], "requests")
    wrong = ("Runtime.exceptionThrown", "Log.entryAdded", "Runtime.consoleAPICalled")
    same([e for e in b.events if e.get("method") in wrong], [], "errors of the page")
finally:
    b.close()
print(f"{checked} checks of {len([name for name in os.listdir(folder) if name.endswith('.html')])} pages in {version}")
