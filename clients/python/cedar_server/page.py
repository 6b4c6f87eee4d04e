"""The page for those who look rather than read: one file, which asks this service alone."""

import base64
import hashlib
import os
import re

from starlette.requests import Request
from starlette.responses import Response

_FILE = os.path.join(os.path.dirname(os.path.abspath(__file__)), "page.html")


class Page:
    """The page, with headers by which nothing runs in it but its own script, and it speaks to nobody else."""

    def __init__(self) -> None:
        with open(_FILE, encoding="utf-8") as it:
            self._text = it.read()
        (script,) = re.findall(r"(?s)<script>(.*?)</script>", self._text)
        digest = base64.b64encode(hashlib.sha256(script.encode()).digest()).decode()
        allowed = f"default-src 'none'; script-src 'sha256-{digest}'; style-src 'unsafe-inline'; connect-src 'self'; img-src data:"
        self._headers = {"content-security-policy": f"{allowed}; frame-ancestors 'none'; base-uri 'none'"}
        self._headers.update({"x-content-type-options": "nosniff", "referrer-policy": "no-referrer"})

    async def show(self, _: Request) -> Response:
        return Response(self._text, headers=self._headers, media_type="text/html")
