"""The page over two processes with one journal: an active one, and a standby that does not listen."""

import contextlib
import time
from urllib.parse import quote

from browser import ENTER
from etcd_standin import Standin
from page.keys import focus_on
from page.look import Look, requests
from page.scripts import AT, FOCUS, IS, LINKS, SAYS, STRANGE
from page.service import Service
from ports import free_port
from serving import PATIENCE, same

GROUP, LED = "jobs", "Term 1, leader 1/9, known to 2 of 2"
GROUPS = [f"create {GROUP} chang", f"join {GROUP} 3", f"join {GROUP} 1/9", f"start {GROUP}", "create mail chang"]
MOST = 8
# An address of this machine that is only shown, so nobody needs to listen there.
GOOD = "localhost:7502"
# None of these is HOST:PORT of this machine.
BAD = ["javascript:alert(1)", "javascript:7502", "<img src=x>", "<script>alert(1)</script>", '"><b>127.0.0.1:7502',
       "127.0.0.1:7502\" onclick=\"alert(1)", "127.0.0.1", "127.0.0.1:", "127.0.0.1:0", "127.0.0.1:07502",
       "127.0.0.1:65536", "127.0.0.1:75020", "127.0.0.1:750200", "127.0.0.1:7502/", "127.0.0.1:7502#/x",
       "127.0.0.1:7502?or=x", "127.0.0.1:7502@example.org", "127.0.0.1:7502@example.org:80", "a@127.0.0.1:7502",
       "http://127.0.0.1:7502", "//127.0.0.1:7502", "example.org:7502", "127.0.0.1.example.org:80", "localhost.:7502",
       "127.0.0.2:7502", "127.1:7502", "127a0b0c1:7502", "2130706433:7502", "0x7f.0.0.1:7502", "0:7502", "[::1]:7502",
       "10.0.0.1:7502", " 127.0.0.1:7502", "127.0.0.1:7502 ", "127.0.0.1:7502\n", "\n127.0.0.1:7502",
       "127.0.0.1:7502\0", "127.0.0.1:+7502", "127.0.0.1:7e3", "127.0.0.1:\u0667\u0665",
       "127\u30020\u30020\u30021:7502", "loca\u017fhost:7502", "%zz", ""]


def query_of(texts):
    """The query that names these texts."""
    return "?or=" + ",".join(quote(text, safe=":") for text in texts)


def link_to(address, others):
    """The link to an address that the page shows: the same group there, and the others."""
    return [address, f"http://{address}/{query_of(others)}#/{GROUP}"]


def follow(window, link):
    """Follows a link by keys alone."""
    focus_on(window, link[1])
    window.press(ENTER)


def see_end(look, wanted):
    """The service ends. The page shows these links and no other; how soon is judged at the end."""
    began = time.monotonic()
    look.service.end()
    look.sees("other addresses", began, f"{LINKS}.length > 0")
    same("the links", look.window.run(LINKS), wanted)
    same("the banner", look.window.run(SAYS, "banner", "Another process may have taken over."), True)


def check_takeover(look, standby, nobody):
    """The active process ends. The page leads to the standby, once that listens, and there back to the first one."""
    first, window = look.service, look.window
    links = [link_to(nobody, [standby.address, first.address]), link_to(standby.address, [first.address, nobody])]
    window.open(first.site + query_of([nobody, standby.address]) + f"#/{GROUP}")
    window.until("the group", SAYS, "leader", LED, within=PATIENCE)
    same("links as long as the service is there", window.run(LINKS), [])
    see_end(look, links)
    look.shot("others")
    follow(window, links[0])
    window.until("the browser's own page", "return location.protocol === 'chrome-error:'", within=PATIENCE)
    window.back()
    window.until("the links again", f"{LINKS}.length === 2", within=PATIENCE)
    standby.wait()
    follow(window, links[1])
    window.until("the other process", AT, standby.address, within=PATIENCE)
    window.until("the same group", SAYS, "leader", LED, within=PATIENCE)
    same("the name of the group", window.run("return document.getElementById('name').textContent"), GROUP)
    look.service = standby


def check_return(look, first, nobody):
    """The second process ends too, and is started again. The links go, and the focus is not lost."""
    second, window = look.service, look.window
    links = [link_to(first.address, [nobody, second.address]), link_to(nobody, [second.address, first.address])]
    see_end(look, links)
    window.run("location.hash = '#/mail'")
    same("a link after another group was opened", window.run(LINKS)[0][1], links[0][1].replace(GROUP, "mail"))
    focus_on(window, links[1][1].replace(GROUP, "mail"))
    second.start()
    window.until("the service again", IS, "well", within=PATIENCE)
    same("links once it is back", window.run(LINKS), [])
    same("the focus", window.run(FOCUS), ["service", True])


def shown(look, query, rest=""):
    """The links that the page shows for a query if it is cut off from its service."""
    window = look.window
    window.open(look.service.site + query + rest)
    window.until("the list", IS, "well", within=PATIENCE)
    window.cut_off(True)
    window.until("that it is cut off", IS, "gone", within=PATIENCE)
    links = window.run(LINKS)
    same("elements in the place of the links", window.run(STRANGE), 0)
    window.cut_off(False)
    window.until("that it is not cut off", IS, "well", within=PATIENCE)
    requests(look)
    return links


def check_queries(look):
    """Text that is no address of this machine is ignored, and so is a list of too many addresses."""
    own = look.service.address
    for place in range(0, len(BAD), MOST - 1):
        some = BAD[place:place + MOST - 1]
        wanted = [[GOOD, f"http://{GOOD}/{query_of([own])}#/"]]
        same(f"links for {some}", shown(look, query_of([*some, GOOD])), wanted)
    for query in ("", "?", "?or", "?or=", "?OR=" + GOOD, "?and=1;or=" + GOOD, query_of([own]), query_of([own, own])):
        same(f"links for {query}", shown(look, query), [])
    same("a group of a strange name", shown(look, query_of(["LOCALHOST:7502"] * 2), "#/%22%3E<img src=x>"),
         [[GOOD, f"http://{GOOD}/{query_of([own])}#/%22%3E%3Cimg%20src=x%3E"]])
    many = [f"127.0.0.1:{port}" for port in range(1000, 11000)]
    same("links for the most addresses", [text for text, _ in shown(look, query_of(many[:MOST]))], many[:MOST])
    for count in (MOST + 1, 600):
        same(f"links for {count} addresses", shown(look, query_of(many[:count])), [])
    look.window.open(look.service.site + query_of(many))
    same("the page for 10,000 addresses", look.window.run("return document.getElementById('others')"), None)
    same("links thereafter", len(shown(look, query_of([GOOD]))), 1)


def check_others(words, window, folder):
    """All about other addresses. Returns how soon the page showed them."""
    journal = f"etcd://{Standin().place()}/page"
    first, second = Service(words.program, folder, journal), Service(words.program, folder, journal)
    with contextlib.ExitStack() as last:
        last.callback(first.end)
        last.callback(second.end)
        first.start()
        first.say(*GROUPS)
        second.begin()
        look, nobody = Look(words, first, window), f"localhost:{free_port()}"
        check_takeover(look, second, nobody)
        check_return(look, first, nobody)
        check_queries(look)
        return look.judge()
