"""The picture of an election, /v1/groups/GROUP/election.svg."""

import re
import xml.etree.ElementTree

from serving import Differs, same
from web.asking import Web

SVG = "{http://www.w3.org/2000/svg}"
NO_PICTURE = b"no picture: no term was started since ringd began\n"


def check_picture(port, group, leader):
    """The picture of an election is there, or is not before a term."""
    web = Web(port)
    path = f"/v1/groups/{group}/election.svg"
    status, response, body = web.get(path)
    if leader is None:
        kind = response.getheader("content-type")
        same(path, (status, kind, body), (404, "text/plain; charset=utf-8", NO_PICTURE))
    else:
        same(f"the status and type of {path}", (status, response.getheader("content-type")), (200, "image/svg+xml"))
        look_at(xml.etree.ElementTree.fromstring(body), leader)
        same(f"HEAD of {path}", web.get(path, "HEAD")[::2], (200, b""))
    web.close()


def look_at(root, leader):
    """A picture has the leader and says what order it shows. No part of it is one that the policy refuses."""
    same("the root of a picture", root.tag, f"{SVG}svg")
    text = " ".join(" ".join(it.itertext()) for it in root.iter())
    if not re.search(rf"\bleader {leader}(/[0-9]+)?, known to [1-9]", text) or "drain" not in text:
        raise Differs(f"a picture does not say that {leader} leads in the order of a drain: {text[:200]}")
    for it in root.iter():
        bad = [name for name in it.attrib if name == "style" or name.startswith("on") or name.endswith("href")]
        if it.tag in (f"{SVG}style", f"{SVG}script", f"{SVG}image") or bad:
            raise Differs(f"a picture has {it.tag} {bad}")
