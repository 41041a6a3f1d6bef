"""What pyproject.toml says of the project, as a wheel says it ("Core metadata specifications", "Entry points
specification", packaging.python.org)."""
from typing import Iterator, List

from lambda_local.toml_reader import NotToml, Table, read_toml, table_in


class NotProject(ValueError):
    """What is wrong with pyproject.toml."""


def tables_of(text: str) -> Table:
    """All tables of the file."""
    try:
        return read_toml(text)
    except NotToml as fault:
        raise NotProject(f"pyproject.toml: {fault}") from None


def text_in(table: Table, name: str) -> str:
    value = table.get(name)
    if not isinstance(value, str):
        raise NotProject(f"pyproject.toml: {name} must be a string")
    return value


def texts_in(table: Table, name: str) -> List[str]:
    value = table.get(name)
    found = [it for it in value if isinstance(it, str)] if isinstance(value, list) else []
    if found != value:
        raise NotProject(f"pyproject.toml: {name} must be a list of strings")
    return found


def metadata_of(tables: Table, version: str, readme: str) -> str:
    """The core metadata, which end with the readme."""
    lines = ["Metadata-Version: 2.1", *fields_of(table_in(tables, "project"), version), "", readme]
    return "\n".join(lines)


def fields_of(project: Table, version: str) -> Iterator[str]:
    yield f"Name: {text_in(project, 'name')}"
    yield f"Version: {version}"
    yield f"Summary: {text_in(project, 'description')}"
    yield f"License: {text_in(project, 'license')}"
    yield from (f"License-File: {name}" for name in texts_in(project, "license-files"))
    yield f"Keywords: {','.join(texts_in(project, 'keywords'))}"
    yield from (f"Classifier: {it}" for it in texts_in(project, "classifiers"))
    urls, extras = table_in(project, "urls"), table_in(project, "optional-dependencies")
    yield from (f"Project-URL: {label}, {text_in(urls, label)}" for label in urls)
    yield f"Requires-Python: {text_in(project, 'requires-python')}"
    for extra in extras:
        yield f"Provides-Extra: {extra}"
        yield from (f'Requires-Dist: {need}; extra == "{extra}"' for need in texts_in(extras, extra))
    yield "Description-Content-Type: text/markdown"


def entry_points_of(tables: Table) -> str:
    """The commands, and the plugins by their groups."""
    project = table_in(tables, "project")
    points = table_in(project, "entry-points")
    groups = {"console_scripts": table_in(project, "scripts"), **{group: table_in(points, group) for group in points}}
    return "\n".join(f"[{group}]\n" + "".join(f"{name} = {text_in(table, name)}\n" for name in table)
                     for group, table in groups.items())
