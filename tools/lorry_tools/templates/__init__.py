"""Writes pages and figures by the templates of this folder, with jinja2."""
from __future__ import annotations

import functools
import html
import os
import re
from typing import TYPE_CHECKING

from lorry_tools.problems import Problem

if TYPE_CHECKING:
    import jinja2
    import markupsafe

FOLDER = os.path.dirname(os.path.abspath(__file__))
NOT_XML = re.compile("[^\t\n\r\x20-\ud7ff\ue000-\ufffd\U00010000-\U0010ffff]")


def quoted(text: object) -> markupsafe.Markup:
    """Returns a text as XML and HTML write it; characters that they don't have are replaced."""
    import markupsafe

    return markupsafe.Markup(html.escape(NOT_XML.sub("\ufffd", str(text)), quote=True))


@functools.lru_cache(maxsize=None)
def environment() -> jinja2.Environment:
    try:
        import jinja2
    except ImportError:
        raise Problem(
            "jinja2, which writes pages and figures, is missing: apt-get install python3-jinja2"
        ) from None
    made = jinja2.Environment(
        loader=jinja2.FileSystemLoader(FOLDER),
        autoescape=True,
        trim_blocks=True,
        lstrip_blocks=True,
        keep_trailing_newline=True,
        undefined=jinja2.StrictUndefined,
    )
    made.filters["xml"] = quoted
    return made


def rendered(template: str, /, **values: object) -> str:
    """Returns the text of a template with these values."""
    return environment().get_template(template).render(**values)
