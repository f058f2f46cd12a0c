"""Elements of XML as texts. charts.py and report_page.py use it. It needs Python 3.11 and nothing else."""
from __future__ import annotations

import html
import re

# What no XML may have.
NOT_XML = re.compile("[^\t\n\r\u0020-\ud7ff\ue000-\ufffd\U00010000-\U0010ffff]")


def escaped(text: str) -> str:
    """A text as content or as the value of an attribute.

    >>> escaped('<a & "b">\\0')
    '&lt;a &amp; &quot;b&quot;&gt;\ufffd'
    """
    return html.escape(NOT_XML.sub("\ufffd", text))


def element(name: str, *content: str, **attributes: object) -> str:
    """An element of this content, which is escaped already. An underscore in an attribute's name stands for a hyphen,
    and one at its end for nothing.

    >>> element("text", "a &lt; b", x=1, text_anchor="end", class_="small")
    '<text x="1" text-anchor="end" class="small">a &lt; b</text>'
    """
    named = "".join(f' {key.rstrip("_").replace("_", "-")}="{escaped(str(value))}"'
                    for key, value in attributes.items())
    return f"<{name}{named}>{''.join(content)}</{name}>" if content else f"<{name}{named}/>"
