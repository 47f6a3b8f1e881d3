"""The page while it waits: whose answer is on the screen, and the words for what comes instead of an answer."""
import json, threading, time
from office import QUOTATIONS, connections, told, wait_until

DESK = QUOTATIONS[0]
CIRCLE, JAW = 'circle trip', 'open jaw'

# The next question's answer is brought two seconds late, and isn't left when another question is asked.
LATE = """
const real = window.fetch;
window.fetch = (path, options) => {
  window.fetch = real;
  return new Promise((done) => setTimeout(done, 2000)).then(() => real(path, { ...options, signal: undefined }));
};
"""

# The next question is answered as nginx answers it, with a page.
ANSWERED = """
const real = window.fetch;
const answer = new Response("<html><h1>nginx</h1></html>", { status: arguments[0], headers: { "Content-Type": "text/html" } });
window.fetch = () => { window.fetch = real; return Promise.resolve(answer); };
"""


def quoted(office):
    """How many quotations the office has answered."""
    return sum('POST /json/quote ' in line for line in office.access())


def overtaken(office, page, circle, jaw):
    """An answer that comes after a newer question's isn't shown."""
    page.fill(circle)
    before = quoted(office)
    page.run(LATE)
    page.press('quote')
    page.run("document.getElementById('json').value = arguments[0]", json.dumps(jaw))
    page.press('quote')
    page.wait([JAW])
    wait_until(lambda: quoted(office) == before + 2, 'the late answer is there')
    time.sleep(1)
    assert JAW in page.text() and CIRCLE not in page.text(), f'an overtaken answer is shown: {page.text()}'
    told('an overtaken answer isn\'t shown')


def waits(office, page, circle):
    """The answer of the question before is gone while another is waited for, and the seconds are told."""
    page.fill(circle)
    page.press('quote')
    page.wait([CIRCLE])
    office.hang(DESK)
    page.press('quote')
    assert CIRCLE not in page.text(), 'the former answer is on the screen while another one is waited for'
    page.wait_for(r'The desk works on it: [1-9]\d* s')
    page.keep('waiting')
    office.wake(DESK)
    page.wait([CIRCLE])
    told('while it waits, the page says so with the seconds, and shows no former answer')


def greys(page, circle):
    """An answer greys when the form changes."""
    page.fill(circle)
    page.press('quote')
    page.wait([CIRCLE])
    assert 'stale' not in page.at('answer').get_attribute('class').split()
    page.at('from').send_keys('\ue003')
    assert 'stale' in page.at('answer').get_attribute('class').split(), 'the answer of another trip looks like that of the form'
    page.wait(['The form has changed'])
    page.keep('changed')
    told('an answer greys when the form changes')


def too_long(page, circle):
    """A pasted itinerary of seventeen sectors is refused, and nothing of it is dropped."""
    sectors = [dict(circle['sectors'][k % 2], to=('TYO', 'LON')[k % 2]) for k in range(17)]
    page.paste(dict(circle, sectors=sectors))
    page.at('fill').click()
    page.wait(['Too many sectors', '17'])
    assert len(page.browser.find_elements('css selector', '.sector')) == 1
    assert page.at('json').get_attribute('value') != '' and page.marked() == ['json'], page.marked()
    told('a pasted itinerary that is too long is refused in words, and stays where it was pasted')


def told_by_nginx(office, page, circle):
    """What nginx answers for real."""
    page.fill(circle)
    office.hang(DESK)
    waiting = [threading.Thread(target=office.ask, args=('POST', '/json/quote', json.dumps(circle))) for _ in range(8)]
    for one in waiting:
        one.start()
    wait_until(lambda: connections(DESK) == 8, 'the address has its eight questions before the desk')
    page.press('quote')
    page.wait(['Too many questions', 'status 429'])
    office.wake(DESK)
    for one in waiting:
        one.join()
    office.hang(DESK)
    page.press('quote')
    page.wait(['The answer takes too long', 'status 504'])
    office.wake(DESK)
    office.kill(DESK)
    page.press('quote')
    page.wait(['No desk could answer', 'status 502'])
    office.start(DESK)
    page.run("document.getElementById('json').value = 'x'.repeat(17 * 1024 * 1024)")
    page.press('quote')
    page.wait(['Too long', 'status 413'])
    told('429, 502, 504 and 413, each in its words')


def told_by_others(page, circle):
    """What an operator's own configuration may answer."""
    page.fill(circle)
    for status, title in ((403, 'Not from here'), (404, 'There is no such question'), (503, 'The desk takes no questions now')):
        page.run(ANSWERED, status)
        page.press('quote')
        page.wait([title, f'status {status}'])
        assert 'nginx' not in page.text(), page.text()
    told('403, 404 and 503, each in its words')


def run(office, page, circle, jaw):
    overtaken(office, page, circle, jaw)
    waits(office, page, circle)
    greys(page, circle)
    too_long(page, circle)
    told_by_nginx(office, page, circle)
    told_by_others(page, circle)
