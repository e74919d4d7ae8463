"""Pages that stand by themselves, made from the templates beside this file."""
from pathlib import Path

from srp.needs import need


def made(template, filters, **values):
    """The page of a template. A value that it lacks is a fault and not an empty place."""
    jinja2 = need("jinja2")
    maker = jinja2.Environment(autoescape=True, trim_blocks=True, lstrip_blocks=True, undefined=jinja2.StrictUndefined,
                               loader=jinja2.FileSystemLoader(Path(__file__).parent, encoding="utf-8"))
    maker.filters.update(filters)
    return maker.get_template(template).render(**values)
