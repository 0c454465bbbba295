"""The metrics that are not of groups: clients, refusals, resident memory and the journal."""

import time

from processes import used
from serving import PATIENCE, Client, Differs, same
from web import metrics
from web.asking import METRICS, Web
from web.metrics import of
from web.refused import GOOD

# The lines of a session that are refused, with the words.
REFUSED = {b"create a chang": "exists", b"members none": "no-group", b"join a 1": "member", b"leave a 99": "not-member",
           b"start empty": "empty", b"who empty 1": "no-term", b"who a 99": "not-in-term", b"hello": "bad-line",
           b"deliver a 1 left": "bad-line", b"groups" + 200 * b" ": "bad-line"}
# First lines of campaigns that are no joins. The last one is longer than any line.
NO_JOINS = (b"hello\n", b"groups\n", b"join a 0\n", b"join a 1" + 200 * b" " + b"\n")
# as many as serve each port at a time without --sessions
THREADS = 16
# By how many bytes resident memory may differ that is read twice.
APART = 1 << 20


def check_figures(service):
    """Clients, refusals, memory and the journal are counted as they are."""
    web, client = Web(service.web), Client(service.port)
    metrics.check_lint(web.body("/metrics", METRICS))
    before = web.samples()
    metrics.check_names(before, not service.has_journal, service.has_journal)
    same("failed accepts", before["ringd_failed_accepts_total"], 0)
    check_refusals(service, web, client)
    check_clients(service, web)
    resident, seen = web.samples()["process_resident_memory_bytes"], used(service.run.pid)[2]
    if abs(resident - seen) > APART:
        raise Differs(f"resident memory: {resident}, and not {seen}")
    client.close()
    if service.has_journal:
        check_journal(service, web)
    web.close()


def check_refusals(service, web, client):
    """Each refused line of a session is counted once, and each refused first line of a campaign. A scrape's own questions
    are counted too, always alike."""
    first, before = web.samples(), web.samples()
    for line, word in REFUSED.items():
        same(line, client.ask(line + b"\n"), f"no {word}\n".encode())
    words = [*REFUSED.values(), *([] if service.has_journal else refused_campaigns(service.campaigns))]
    after = web.samples()
    for word in metrics.REFUSALS:
        name = of("ringd_refusals_total", "refusal", word)
        same(name, after[name] - 2 * before[name] + first[name], words.count(word))


def refused_campaigns(place):
    """The words by which campaigns are refused that do not begin with a join. Each of them has ended by then."""
    for line in NO_JOINS:
        campaign = Client(place)
        campaign.send(line)
        same(line, campaign.all(), b"no bad-line\n")
        campaign.close()
    return len(NO_JOINS) * ["bad-line"]


def expect_clients(web, port, count):
    """Waits until so many clients of a port are told. The program notices some time later that a client has gone."""
    name, until = of("ringd_clients", "port", port), time.monotonic() + PATIENCE
    while (seen := web.samples()[name]) != count:
        if time.monotonic() > until:
            raise Differs(f"{name}: {seen}, and not {count}")


def check_clients(service, web):
    """As many clients are told as there are. One session and one client of HTTP ask meanwhile."""
    asked = [("sessions", service.port, 1, b"groups\n"), ("http", service.web, 1, GOOD)]
    asked += [] if service.has_journal else [("campaigns", service.campaigns, 0, b"")]
    for port, number, others, text in asked:
        same(f"the limit of {port}", web.samples()[of("ringd_clients_limit", "port", port)], THREADS)
        expect_clients(web, port, others)
        clients = [Client(number) for _ in range(3)]
        for client in clients:
            client.send(text)
        expect_clients(web, port, others + 3)
        for client in clients:
            client.close()
        expect_clients(web, port, others)


def check_journal(service, web):
    """A change is synced and makes the journal longer. A question does not. An earlier session may have been let go as
    silent, so these are those of a new one."""
    client, before = Client(service.port), web.samples()
    same("a reply", client.ask(b"members a\n")[:8], b"members ")
    same("the journal after a question", *[[it[name] for name in metrics.JOURNAL] for it in (web.samples(), before)])
    same("join and leave", client.ask(b"join empty 7\n") + client.ask(b"leave empty 7\n"), b"ok\nok\n")
    after = web.samples()
    for name in metrics.JOURNAL:
        if after[name] <= before[name]:
            raise Differs(f"{name} is {after[name]} after two changes, and was {before[name]}")
    same("the bytes of the journal", after["ringd_journal_bytes"], len(service.journal.read_bytes().rstrip(b"\0")))
    client.close()
