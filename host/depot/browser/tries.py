"""Tries of depot's pages in a browser: tries.py FOLDER DEPOT.. (run makes the folder's files and calls it)."""
import pathlib
import random
import re
import subprocess
import sys
import time

from selenium import webdriver
from selenium.webdriver.chrome.options import Options
from selenium.webdriver.chrome.service import Service
from selenium.webdriver.common.action_chains import ActionChains
from selenium.webdriver.common.by import By
from selenium.webdriver.common.keys import Keys
from selenium.webdriver.support.ui import Select

FOLDER, DEPOT = pathlib.Path(sys.argv[1]), sys.argv[2:]
KINDS = ("in the zone", "on a vertex of its border", "on its border")
counts = {True: 0, False: 0}


def check(what, good, *seen):
    counts[bool(good)] += 1
    print("ok     " if good else "FAILED ", what, *([] if good else seen), flush=True)


def browser():
    options = Options()
    for word in ("--headless=new", "--no-sandbox", "--disable-gpu", "--disable-dev-shm-usage"):
        options.add_argument(word)
    options.set_capability("goog:loggingPrefs", {"browser": "ALL"})
    driver = webdriver.Chrome(service=Service("/usr/bin/chromedriver"), options=options)
    driver.set_page_load_timeout(120)
    return driver


def window(driver, wide, high, dark=False):
    driver.execute_cdp_cmd("Emulation.setDeviceMetricsOverride", {"width": wide, "height": high, "deviceScaleFactor": 1, "mobile": False})
    scheme = {"name": "prefers-color-scheme", "value": "dark" if dark else "light"}
    driver.execute_cdp_cmd("Emulation.setEmulatedMedia", {"features": [scheme]})


def opened(driver, name):
    driver.get((FOLDER / f"{name}.html").as_uri())
    settle(driver)


def settle(driver):
    """Until what was asked of the page is drawn."""
    time.sleep(0.3)
    driver.execute_async_script("const done = arguments[0]; requestAnimationFrame(() => requestAnimationFrame(() => done()));")


def picture(driver, name):
    time.sleep(0.5)
    driver.save_screenshot(str(FOLDER / f"{name}.png"))


def by(driver, css):
    return driver.find_element(By.CSS_SELECTOR, css)


def said_by_depot(file, lat, lon):
    """The zones with their kinds, and how the search ended, as `depot zone` says them."""
    ran = subprocess.run([*DEPOT, "zone", str(FOLDER / file), lat, lon], capture_output=True, text=True, check=False)
    lines = ran.stdout.split("\n")
    zones = sorted(line for line in lines if not line.startswith("  ") and line.endswith(KINDS))
    return zones, [line for line in lines if line.startswith("search: ")]


def said_by_page(driver):
    place = by(driver, "#place")
    zones = sorted(line.text for line in place.find_elements(By.CSS_SELECTOR, ".zone > p:first-child"))
    return zones, [line.text for line in place.find_elements(By.TAG_NAME, "p") if line.text.startswith("search: ")]


def same_answer(driver, file, what):
    """The page's answer is depot's, at the place that the page says the library was asked at."""
    place = by(driver, "#place")
    asked, exact = place.get_attribute("data-asked").split(" "), place.get_attribute("data-exact") == "true"
    page, tool = said_by_page(driver), said_by_depot(file, *asked)
    spaces = lambda answer: ([" ".join(zone.split()) for zone in answer[0]], answer[1])
    check(f"{file} {what} {' '.join(asked)}: {'; '.join(tool[0]) or 'no zone'}", spaces(page) == spaces(tool), page, tool)
    words = place.text
    told = "the library’s verdict" in words if exact else "by the picture" in words and f"./depot zone {file} {place.get_attribute('data-lat')} {place.get_attribute('data-lon')}" in words
    check(f"{file} {what}: says how it is known", told, words)


def ask(driver, lat, lon):
    box = by(driver, "#where")
    box.clear()
    box.send_keys(f"{lat} {lon}", Keys.ENTER)
    settle(driver)


def ten_places(driver, file):
    """Four places typed, four pointed at and clicked, two at yards' centres."""
    frame = driver.execute_script("return JSON.parse(document.getElementById('data').textContent).frame")
    chance = random.Random(file)
    for _ in range(4):
        south, west, north, east = frame
        ask(driver, round(chance.uniform(south, north), 5), round(chance.uniform(west, east), 5))
        same_answer(driver, file, "typed")
    by(driver, "#all").click()
    canvas = by(driver, "#map")
    wide, high = canvas.size["width"], canvas.size["height"]
    for _ in range(4):
        x, y = chance.uniform(-0.35, 0.35) * wide, chance.uniform(-0.2, 0.2) * high
        ActionChains(driver).move_to_element_with_offset(canvas, int(x), int(y)).click().perform()
        settle(driver)
        same_answer(driver, file, "pointed at")
    buttons = driver.find_elements(By.CSS_SELECTOR, "#yards [data-yard]")
    for button in (buttons[0], buttons[-1]):
        driver.execute_script("arguments[0].click()", button)
        settle(driver)
        check(f"{file}: a yard's centre is exact", by(driver, "#place").get_attribute("data-exact") == "true")
        same_answer(driver, file, "centre of")


def view_line(driver, x=0.25, y=0.25):
    """What the line under the pointer says at a part of the map: it changes where the map moves."""
    canvas = by(driver, "#map")
    wide, high = canvas.size["width"], canvas.size["height"]
    ActionChains(driver).move_to_element_with_offset(canvas, int((x - 0.5) * wide) + 1, int((y - 0.5) * high)).perform()
    ActionChains(driver).move_to_element_with_offset(canvas, int((x - 0.5) * wide), int((y - 0.5) * high)).perform()
    return by(driver, "#at").text


def moves_and_zooms(driver, name):
    canvas = by(driver, "#map")
    by(driver, "#all").click()
    seen = [view_line(driver)]

    def changes(what):
        settle(driver)
        seen.append(view_line(driver))
        check(f"{name}: {what} changes the view", seen[-1] != seen[-2] and re.match(r"-?\d", seen[-1]), seen[-2:])

    by(driver, "#in").click()
    changes("the button +")
    ActionChains(driver).scroll_from_origin(webdriver.common.actions.wheel_input.ScrollOrigin.from_element(canvas), 0, -300).perform()
    changes("the wheel")
    ActionChains(driver).move_to_element(canvas).click_and_hold().move_by_offset(60, 40).release().perform()
    changes("dragging")
    pinch(driver, canvas)
    changes("a pinch")
    driver.execute_script("arguments[0].focus()", canvas)
    for key, what in ((Keys.ARROW_LEFT, "an arrow"), ("+", "the key +"), ("-", "the key -"), ("0", "the key 0")):
        ActionChains(driver).send_keys(key).perform()
        changes(what)
    ActionChains(driver).send_keys(Keys.ENTER).perform()
    settle(driver)
    check(f"{name}: Enter asks at the middle", by(driver, "#place").get_attribute("data-asked") != "")


def pinch(driver, canvas):
    box = driver.execute_script("const b = arguments[0].getBoundingClientRect(); return [b.left + b.width / 2, b.top + b.height / 2]", canvas)
    points = lambda apart: [{"x": box[0] - apart, "y": box[1], "id": 0}, {"x": box[0] + apart, "y": box[1], "id": 1}]
    for kind, touches in (("touchStart", points(30)), ("touchMove", points(50)), ("touchMove", points(80)), ("touchEnd", [])):
        driver.execute_cdp_cmd("Input.dispatchTouchEvent", {"type": kind, "touchPoints": touches})


def searches(driver, name, word, want):
    box = by(driver, "#search")
    box.clear()
    box.send_keys(word)
    shown = [item.text for item in driver.find_elements(By.CSS_SELECTOR, "#yards > li:not([hidden]) .line")]
    check(f"{name}: searching {word!r} leaves {want}", len(shown) == want, shown)
    check(f"{name}: and says so", by(driver, "#found").text == f"{want} of {len(driver.find_elements(By.CSS_SELECTOR, '#yards > li'))}")
    box.send_keys(Keys.ENTER)
    settle(driver)
    check(f"{name}: Enter opens the first", len(driver.find_elements(By.CSS_SELECTOR, "#yards .line[aria-expanded=true]")) == 1)
    box.clear()
    box.send_keys(" ", Keys.BACKSPACE)


def no_errors(driver, name):
    lines = [line["message"] for line in driver.get_log("browser")]
    check(f"{name}: nothing in the console", not lines, lines)


def narrow(driver, name):
    window(driver, 360, 740)
    opened(driver, name)
    wide = driver.execute_script("return [document.documentElement.scrollWidth, innerWidth]")
    check(f"{name}: no sideways scrolling at 360 pixels", wide[0] <= 360 == wide[1], wide)
    picture(driver, f"{name}-360")
    window(driver, 1280, 800)


def smooth(driver, name):
    """Drags the map for forty frames: what the page's thread works on each, whatever else the machine does."""
    driver.execute_cdp_cmd("Performance.disable", {})
    driver.execute_cdp_cmd("Performance.enable", {"timeDomain": "threadTicks"})
    worked = lambda: next(one["value"] for one in driver.execute_cdp_cmd("Performance.getMetrics", {})["metrics"] if one["name"] == "TaskDuration")
    before = worked()
    driver.execute_async_script("""
        const done = arguments[0], map = document.getElementById('map');
        const send = (type, x) => map.dispatchEvent(new PointerEvent(type, { pointerId: 7, clientX: x, clientY: 300, bubbles: true }));
        map.setPointerCapture = () => {};
        send('pointerdown', 300);
        const step = (k) => {
            send('pointermove', 300 + 5 * k);
            requestAnimationFrame(() => { k < 40 ? step(k + 1) : (send('pointerup', 300 + 5 * k), done()); });
        };
        step(1);""")
    each = 1000 * (worked() - before) / 40
    check(f"{name}: a frame while dragging takes {each:.0f} ms, at most 33", each <= 33)


def the_day(driver):
    rows = lambda: [row for row in driver.find_elements(By.CSS_SELECTOR, "#slips tr") if row.is_displayed()]
    check("yards: six slips", len(rows()) == 6)
    choice = Select(by(driver, "#way"))
    check("yards: ways to filter by", [option.text for option in choice.options] == ["all 6 slips", "stamped: 4", "no zone: 1", "hours differ: 1"], [o.text for o in choice.options])
    choice.select_by_visible_text("no zone: 1")
    check("yards: one has no zone", [("2005" in row.text, "no zone holds the fix" in row.text) for row in rows()] == [(True, True)])
    choice.select_by_index(0)
    for button in driver.find_elements(By.CSS_SELECTOR, "[data-slip]"):
        driver.execute_script("arguments[0].click()", button)
        settle(driver)
        place = by(driver, "#place")
        row = button.find_element(By.XPATH, "./ancestor::tr").get_attribute("textContent")
        line = place.find_element(By.CSS_SELECTOR, ".stamped, .unstamped").text
        check("yards: a slip's answer is exact, with its line", place.get_attribute("data-exact") == "true" and line[:4] in row and line[-12:] in row, line, row)
        same_answer(driver, "yards.plb", "slip at")


def for_readers(driver):
    """The picture that README.md shows, docs/page.png, and the page behind it."""
    window(driver, 1020, 600)
    opened(driver, "yards")
    choice = next(button for button in driver.find_elements(By.CSS_SELECTOR, "[data-slip]") if "2005" in button.find_element(By.XPATH, "./ancestor::tr").get_attribute("textContent"))
    driver.execute_cdp_cmd("Emulation.setScrollbarsHidden", {"hidden": True})
    driver.execute_script("arguments[0].click()", choice)
    by(driver, "#all").click()
    driver.execute_script("scrollTo(0, 0)")
    picture(driver, "page")
    driver.execute_cdp_cmd("Emulation.setScrollbarsHidden", {"hidden": False})
    docs = pathlib.Path(__file__).resolve().parents[3] / "docs"
    check("docs/yards.html is this page", (docs / "yards.html").read_bytes() == (FOLDER / "yards.html").read_bytes())


def yards(driver):
    for_readers(driver)
    window(driver, 1280, 800)
    opened(driver, "yards")
    picture(driver, "yards")
    ten_places(driver, "yards.plb")
    ask(driver, 0.0035, 109.338)
    words = by(driver, "#place").text
    check("yards: fields and the browser's hour", "tanks 1 to 8" in words and re.search(r"The hour there now: .*\d\d:\d\d:\d\d by the browser’s own", words), words)
    ask(driver, 80, 0)
    check("yards: outside the picture", "the library was not asked here" in by(driver, "#place").text)
    ask(driver, "x", 0)
    check("yards: what is no place", "the latitude first" in by(driver, "#place").text)
    the_day(driver)
    searches(driver, "yards", "UTC", 1)
    about = by(driver, "#yards .line[aria-expanded=true] + .about").text
    check("yards: what a yard's page says", all(word in about for word in ("Points", "Area", "Box", "Holes", "none", "When built", "Points were moved by up to")), about)
    picture(driver, "yards-chosen")
    moves_and_zooms(driver, "yards")
    by(driver, "#dots").click()
    settle(driver)
    picture(driver, "yards-answers")
    no_errors(driver, "yards")
    narrow(driver, "yards")
    window(driver, 1280, 800, dark=True)
    opened(driver, "yards")
    picture(driver, "yards-dark")
    no_errors(driver, "yards in the dark")


def world(driver, name, word, want):
    window(driver, 1280, 800)
    opened(driver, name)
    picture(driver, name)
    ten_places(driver, f"{name}.plb")
    searches(driver, name, word, want)
    smooth(driver, name)
    moves_and_zooms(driver, name)
    faults = driver.find_elements(By.CSS_SELECTOR, "[data-fault]")
    if faults:
        driver.execute_script("arguments[0].click()", faults[0])
        settle(driver)
        check(f"{name}: a fault's answer is exact", by(driver, "#place").get_attribute("data-exact") == "true")
        same_answer(driver, f"{name}.plb", "fault at")
        picture(driver, f"{name}-fault")
    no_errors(driver, name)


def hostile(driver):
    window(driver, 1280, 800)
    opened(driver, "hostile")
    picture(driver, "hostile")
    titles = [item.get_attribute("textContent") for item in driver.find_elements(By.CSS_SELECTOR, "#yards .line bdi")]
    check("hostile: a yard named <script> is shown so", any("<script>window.hit = 1</script>" in title for title in titles), titles)
    check("hostile: template words are not read", any("{{ 7 * 6 }}" in item.get_attribute("textContent") for item in driver.find_elements(By.CSS_SELECTOR, "dd")))
    ten_places(driver, "hostile.plb")
    for button in driver.find_elements(By.CSS_SELECTOR, "[data-slip], [data-fault]"):
        driver.execute_script("arguments[0].click()", button)
        settle(driver)
        same_answer(driver, "hostile.plb", "slip or fault at")
    heads = [head.get_attribute("textContent") for head in driver.find_elements(By.CSS_SELECTOR, "#faults h3")]
    for words in ("Two yards overlap", "A border crosses itself", "A hole reaches over its edge", "A yard inside another of the same name"):
        check(f"hostile: {words}", any(head.startswith(words) for head in heads), heads)
    check("hostile: nothing of it was run", driver.execute_script("return [window.hit, document.images.length, document.scripts.length]") == [None, 0, 2])
    driver.execute_script("const s = document.createElement('script'); s.textContent = 'window.hit = 9'; document.body.append(s)")
    check("hostile: the policy lets no other script run", driver.execute_script("return window.hit") is None)
    log = [line["message"] for line in driver.get_log("browser")]
    check("hostile: and nothing else in the console", len(log) == 1 and "Content Security Policy" in log[0], log)
    narrow(driver, "hostile")


def main():
    driver = browser()
    try:
        yards(driver)
        world(driver, "world-9", "Berlin", 1)
        world(driver, "world-21", "Berlin", 1)
        hostile(driver)
    finally:
        driver.quit()
    print(f"{counts[True]} passed, {counts[False]} failed")
    return int(counts[False] > 0)


sys.exit(main())
