"""What the pages of `explain`, `plan` and `compare` share: jinja2 fills their templates, and escapes all that comes from captures and lists."""
import base64
import hashlib
from pathlib import Path

from rendapil.other_python import has
from rendapil.sayings import Fault

STYLE = Path(__file__).resolve().parent / "explain/page.css"
"""The style of all pages."""


def refuse_without_jinja() -> None:
    """Ends where jinja2 isn't there."""
    if not has("jinja2"):
        raise Fault("--html needs jinja2: apt-get install python3-jinja2")


def part_of(*paths: Path) -> tuple[str, str]:
    """Files that stand in a page as they are, and their sum, by which the page allows them."""
    text = "".join(path.read_text("utf-8") for path in paths)
    return text, base64.b64encode(hashlib.sha256(text.encode()).digest()).decode()


def page_by(folder: Path, values: dict[str, object]) -> str:
    """The template page.html of a folder with these values."""
    from jinja2 import Environment, FileSystemLoader, StrictUndefined

    room = Environment(autoescape=True, loader=FileSystemLoader(folder), undefined=StrictUndefined, trim_blocks=True, lstrip_blocks=True)
    return str(room.get_template("page.html").render(values))
