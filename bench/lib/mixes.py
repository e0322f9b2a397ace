"""Requests in a fixed order, of four agents, and each kind of request alone.

Of the ten that are asked again and again, two agents in turn lodge three statements (an entity with an identifier that
the agents share, a person, and a relationship that makes chains through the entities of all four), repeat the lodging,
and lodge a draft, which is withdrawn again; between these stand lists of filings, what is published, a snapshot, files,
two reports on chains, and now and then a file under a key that there isn't. Each kind alone is asked of a register of
120 published statements.
"""
from lib.requests import AGENTS, enrolments, lodged, lodging, request


def chains(agent, other, record):
    return request(agent, "GET", f"/chains?agent={other}&declaration=c1&record={record}")


def ten(step):
    """Ten requests."""
    agent, other = AGENTS[step % 4], AGENTS[(step + 1) % 4]
    file = lodged(step // 4)
    return [
        lodging(agent, f"k{step}", "2024-02-01", file),
        chains(agent, agent, f"e{step // 4 % 7}"),
        request(agent, "GET", "/filings"),
        lodging(agent, f"k{step}", "2024-02-01", file),
        request(agent, "GET", f"/snapshot?agent={agent}&declaration=c1"),
        lodging(agent, f"d{step}", "2024-03-01", lodged(1_000 + step, f"-d{step}")),
        request(agent, "GET", "/filings/none/file" if step % 5 == 4 else f"/filings/k{step}/file"),
        chains(other, agent, f"e{step // 4 % 7}"),
        request(agent, "DELETE", f"/filings/d{step}"),
        request(other, "GET", "/published"),
    ]


def mix(count):
    return [one for step in range(count // 10) for one in ten(step)]


def kinds():
    """Each kind of request with what stands before it and how often it is asked."""
    before = enrolments(AGENTS) + [
        lodging(AGENTS[step % 4], f"k{step}", "2024-02-01", lodged(step // 4)) for step in range(40)
    ]
    drafts = [lodging("alder", f"d{n}", "2024-03-01", lodged(1_000 + n, f"-d{n}")) for n in range(200)]
    new = [
        lodging(AGENTS[n % 4], f"n{n}", "2024-02-01", lodged(100 + n // 4, "-n")) for n in range(200)
    ]
    get = lambda target: [request("alder", "GET", target)] * 400
    unknown = get("/filings")[0].replace("Bearer", "Basic")
    return {
        "PUT of three statements": (before, new),
        "PUT, a repeat": (before, [before[4]] * 400),
        "PUT, refused: NotJson": (before, [lodging("alder", "x", "2024-02-01", "[" * 100)] * 400),
        "DELETE of a draft": (before + drafts, [request("alder", "DELETE", f"/filings/d{n}") for n in range(200)]),
        "GET filings": (before, get("/filings")),
        "GET a file": (before, get("/filings/k0/file")),
        "GET published": (before, get("/published")),
        "GET a snapshot": (before, get("/snapshot?agent=alder&declaration=c1")),
        "GET chains": (before, get("/chains?agent=alder&declaration=c1&record=e1")),
        "refused: NoToken": (before, [unknown] * 400),
    }
