"""Colours, windows of any size, the keyboard, the page without scripts, and the pictures of docs."""
import os

from checks.page.browsers import Page
from checks.page.common import shown_panels
from checks.page.files import PAGE
from checks.parts.wrong import expect, expect_true, short

CONTRAST = 4.5
CONTRASTS = r"""
(() => {
  const numbers = css => (css.match(/[\d.]+/g) || []).map(Number);
  const light = color => {
    const [r, g, b] = color.map(value => value / 255 <= 0.03928 ? value / 255 / 12.92 : ((value / 255 + 0.055) / 1.055) ** 2.4);
    return 0.2126 * r + 0.7152 * g + 0.0722 * b;
  };
  const behind = node => {
    const box = node.localName === "text" && node.parentNode.querySelector("rect");
    if (box) return numbers(getComputedStyle(box).fill);
    for (; node; node = node.parentElement) {
      const color = numbers(getComputedStyle(node).backgroundColor);
      if (color.length === 3 || color[3] > 0) return color;
    }
    return [255, 255, 255];
  };
  const found = [];
  for (const node of document.querySelectorAll("body *")) {
    const own = [...node.childNodes].some(child => child.nodeType === 3 && child.data.trim()) || (node.localName === "input" && node.type !== "checkbox");
    if (!own || !node.checkVisibility() || node.localName === "script") continue;
    const style = getComputedStyle(node), front = numbers(node.ownerSVGElement ? style.fill : style.color), back = behind(node);
    const [low, high] = [light(front.slice(0, 3)), light(back.slice(0, 3))].sort((a, b) => a - b);
    found.push([(high + 0.05) / (low + 0.05), node.localName + " " + node.id + " " + node.textContent.slice(0, 20)]);
  }
  return found;
})()
"""


def test_looks(browser):
    """Contrast in light, dark and forced colours; small windows, in which payloads can be read and the verdict is in
    view."""
    least = 21
    page, steps = shown_panels(browser)
    for scheme, forced in [("light", "none"), ("dark", "none"), ("light", "active"), ("dark", "active")]:
        page.ask("Emulation.setEmulatedMedia",
                 features=[{"name": "prefers-color-scheme", "value": scheme},
                           {"name": "forced-colors", "value": forced}])
        expect(page.run("[matchMedia('(prefers-color-scheme: dark)').matches, matchMedia('(forced-colors: "
                        "active)').matches]"), [scheme == "dark", forced == "active"], "the scheme")
        for name, step in steps:
            step()
            least = min(least, contrast_of(page, "%s, %s, forced %s" % (name, scheme, forced)))
            if forced == "active":
                expect_forced_colours(page, name)
    page.ask("Emulation.setEmulatedMedia", features=[])
    # A phone, and a window of 1280 by 800 pixels at 200 %.
    for width, height in (320, 640), (640, 400):
        page.resize(width, height)
        for name, step in steps:
            step()
            expect_fits(page, name, width, height)
    return "contrast at least %.1f" % least


def contrast_of(page, where):
    """The least contrast of the texts that are seen, each of which is enough."""
    found = page.run(CONTRASTS)
    expect_true(len(found) > 8, "too few texts in " + where)
    for ratio, what in found:
        expect_true(ratio >= CONTRAST, "contrast of %.2f in %s: %s" % (ratio, where, short(what)))
    return min(ratio for ratio, _ in found)


def expect_forced_colours(page, name):
    """What colours say elsewhere is said by lines."""
    styles = page.run("[true, false].map(chosen => { const style = "
                      "getComputedStyle(document.querySelector(`[aria-selected=${chosen}]`)); return "
                      "[style.borderTopWidth, style.textDecorationLine]; })")
    expect_true(styles[0] != styles[1], "the tab that is selected in forced colours")
    if name == "proof":
        dashes = page.run("['given', 'made'].map(style => getComputedStyle(document.querySelector(`#picture "
                          ".${style} rect`)).strokeDasharray)")
        expect_true(dashes[0] != dashes[1], "what is given in forced colours")


def expect_fits(page, name, width, height):
    """A panel fits into a window of this size, with its verdict in view and payloads that can be read."""
    where = "%s in %d by %d pixels" % (name, width, height)
    expect_true(page.run("document.documentElement.scrollWidth") <= width, where + " is wider than the window")
    panel = {"proof": "proof", "failed": "proof", "receipt": "proof", "two": "two"}.get(name, "export")
    top, bottom = page.run("(({top, bottom}) => [top, bottom])(seen('%s-verdict').getBoundingClientRect())"
                           % panel)
    if name not in ("event", "wrong"):
        expect_true(0 <= top and bottom <= height, "the verdict isn't in view: " + where)
    if name in ("verify", "refused"):
        cell = page.run("(({width}) => width)(seen('rows').rows[1].cells[3].getBoundingClientRect())")
        expect_true(cell >= width * 0.7, "a payload has %d pixels: %s" % (cell, where))
        expect_true(page.run("parseFloat(getComputedStyle(seen('rows').rows[1].cells[3]).fontSize)") >= 12,
                    "small payloads: " + where)


def test_without_scripts(browser):
    """Without scripts, and in a browser whose hashes are wrong, there is a sentence, and no form."""
    page = Page(browser, PAGE)
    page.ask("Emulation.setScriptExecutionDisabled", value=True)
    page.ask("Page.navigate", url="about:blank")
    page.ask("Page.navigate", url="file://" + PAGE)
    page.wait("document.readyState === 'complete' && Boolean(document.getElementById('state'))")
    left = ("[document.getElementById('state').textContent.split(' ').slice(0, 5).join(' '), "
            "[...document.querySelectorAll('form, button, input, [role=tab]')].filter(node => node.checkVisibility()).length]")
    expect(page.run(left), ["This page needs a current", 0], "the page without scripts")
    page.ask("Emulation.setScriptExecutionDisabled", value=False)
    page = Page(browser, PAGE, before="Math.cbrt = number => number")
    page.wait("document.getElementById('state').textContent.startsWith('Don')")
    expect(page.run(left), ["Don't use this page in", 0], "the page with wrong hashes")
    return "no scripts"


def test_keys(browser):
    """Everything by keyboard, and a name for each control."""
    page, steps = shown_panels(browser)
    page.ask("Emulation.setFocusEmulationEnabled", enabled=True)
    active = "document.activeElement.id"
    for _ in range(3):
        page.press("Tab")
        if page.run(active) == "tab-export":
            break
    expect(page.run(active), "tab-export", "the first place that Tab reaches")
    expect_tabs_by_arrows(page, active)
    expect_order_of_tab(page)
    page.run("seen('commitment').focus()")
    page.press("Enter")
    page.wait("lineOfPanel('export') === 'bad argument'")
    names = 0
    for name, step in steps:
        step()
        names += named_controls(page, name)
        if name not in ("wrong", "event", "proof", "receipt", "two"):
            continue
        if name == "event":
            page.run("seen('filter-kinds').value = '1', seen('filter-form').requestSubmit(), rest()")
            page.run("rest()")
        expect_all_reached(page, name)

    expect_searched_by_keys(page, steps, active)
    return "%d named controls" % names


def expect_tabs_by_arrows(page, active):
    """Arrows, Home and End lead from tab to tab, each with its panel."""
    for key, tab in [("ArrowRight", "proof"), ("ArrowRight", "two"), ("ArrowRight", "export"), ("ArrowLeft", "two"),
                     ("Home", "export"), ("End", "two"), ("Home", "export")]:
        page.press(key)
        expect(page.run(active), "tab-" + tab, "the tab after " + key)
        expect(page.run("[...document.querySelectorAll('[role=tabpanel]')].filter(panel => "
                        "panel.checkVisibility()).map(panel => panel.id).join()"), tab + "-panel",
               "the panel after " + key)
        expect(page.run("[...document.querySelectorAll('[aria-selected=true]')].map(tab => tab.id).join()"),
               "tab-" + tab, "the selected tab")


def expect_order_of_tab(page):
    """Tab leads from field to field, and the focus can be seen."""
    order = []
    for _ in range(4):
        page.press("Tab")
        order.append(page.run("document.activeElement.id || document.activeElement.textContent"))
        expect_true(page.run("getComputedStyle(document.activeElement).outlineStyle") == "solid",
                    "focus can't be seen on " + order[-1])
    expect(order, ["export-file", "key", "commitment", "verify"], "the order of Tab")


def expect_all_reached(page, name):
    """Tab reaches each control that can act, in the order of the page."""
    wanted = page.run("(window.stops = [...document.querySelectorAll('button, input, "
                      "[tabindex=\"0\"]')].filter(node => node.checkVisibility() && !node.disabled && "
                      "(node.tabIndex === 0 || node.role !== 'tab'))).length")
    page.run("stops[0].focus()")
    reached = [0]
    for _ in range(wanted - 1):
        page.press("Tab")
        reached.append(page.run("stops.indexOf(document.activeElement)"))
    expect(reached, list(range(wanted)), "where Tab leads in " + name)


def expect_searched_by_keys(page, steps, active):
    """A search and an event by keyboard."""
    # An event is searched and looked at, and its view closed, by keyboard alone.
    dict(steps)["wrong"]()
    dict(steps)["verify"]()
    page.run("seen('filter-text').focus()")
    page.ask("Input.insertText", text="libxml2:amd64")
    page.press("Enter")
    page.wait("seen('shown').textContent.startsWith('Found 1 of 24') && seen('stop').disabled")
    expect(page.run(active), "filter-text", "the focus after a search")
    page.run("document.querySelector('#rows button').focus()")
    page.press("Enter")
    page.wait("document.activeElement.id === 'event-title'")
    page.run("seen('event-close').focus()")
    page.press(" ")
    page.wait("document.activeElement.textContent === '8'")
    page.run("seen('unfilter').focus()")
    page.press("Enter")
    page.wait("cells().length === 24 && seen('stop').disabled")
    expect(page.run("seen('progress').labels[0].firstChild.id"), "progress-text", "the label of the progress bar")


def named_controls(page, name):
    """How many controls there are, each of which has a name; with the roles that the page has to have."""
    roles, names = {}, 0
    for node in page.ask("Accessibility.getFullAXTree")["nodes"]:
        role, label = node.get("role", {}).get("value"), node.get("name", {}).get("value", "")
        roles.setdefault(role, []).append(label)
        is_focusable = {"name": "focusable",
                        "value": {"type": "booleanOrUndefined", "value": True}} in node.get("properties", [])
        if not node["ignored"] and role not in ("RootWebArea", "cell", "heading") and is_focusable:
            expect_true(label.strip(), "a %s without a name in %s" % (role, name))
            names += 1
    wanted = {"verify": ["table", "checkbox", "columnheader"], "event": ["table", "list", "listitem", "heading"],
              "proof": ["list", "listitem"]}
    for role in ["main", "banner", "tablist", "tab", "tabpanel", "status"] + wanted.get(name, []):
        expect_true(role in roles, "no %s in %s: %s" % (role, name, sorted(map(str, roles))))
    expect_true(len(roles["tab"]) == 3 and all(roles["tabpanel"]) and all(roles.get("table", ["no table"])),
                "tabs, panels and tables are named in " + name)
    if name == "failed":
        expect_true(any("differs" in label for label in roles["listitem"]), "the node that fails is told")
    return names


# The pictures of docs: a panel, the window (a phone in dark colours, a desk's at 200 %, a tablet, a desk), and where
# they begin.
SHOTS = [("refused", "phone", 320, 760, ".result"), ("two", "zoomed", 640, 480, "#two-result"),
         ("event", "tablet", 820, 940, "#event"),
         ("proof", "tablet", 820, 860, "#proof-result"), ("verify", "desk", 1060, 1500, "body")]


def take_shots(browser, folder):
    for name, size, width, height, start in SHOTS:
        page, steps = shown_panels(browser, width, height)
        page.scheme("dark" if size == "phone" else "light")
        for step, show in steps:
            show()
            if step == name:
                break
        page.picture(os.path.join(folder, "page-%s-%s.png" % (name, size)), start)
    return "%d pictures" % len(SHOTS)
