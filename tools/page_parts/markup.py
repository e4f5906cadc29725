"""HTML that escapes whatever it is given: only what this module makes is taken as it is."""
import html


class Markup(str):
    """A text that is HTML already."""


def esc(value):
    return value if isinstance(value, Markup) else Markup(html.escape(str(value)))


def joined(parts):
    return Markup(''.join(esc(part) for part in parts if part is not None))


def tag(name, /, *children, **attributes):
    """An element. `class_` is class, and `data_f` is data-f; an attribute of None or False is left out."""
    words = ''.join(f' {key.rstrip("_").replace("_", "-")}' + ('' if value is True else f'="{html.escape(str(value))}"')
                    for key, value in attributes.items() if value is not None and value is not False)
    inside = joined(children)
    return Markup(f'<{name}{words}>{inside}</{name}>')


def alone(name, /, **attributes):
    """An element without an end."""
    return Markup(tag(name, **attributes).removesuffix(f'</{name}>'))


def number(value):
    return '–' if value is None else f'{value:,}'


def count(value, noun):
    return f'{value:,} {noun}' if value == 1 else f'{value:,} {noun}s'


def link(path, *children, **attributes):
    return tag('a', *children, href=path, **attributes)


class Column:
    """A column of a table: its heading, its class, and the cell of a row. `f` is the name of the value that a cell shows."""

    def __init__(self, head, cell, class_=None, f=None):
        self.head, self.cell, self.class_, self.f = head, cell, class_, f

    def of(self, row):
        shown = self.cell(row)
        return tag('td', number(shown) if isinstance(shown, int) or shown is None else shown, class_=self.class_, data_f=self.f)


def table(columns, rows, name, row_id=None, row_class=None):
    """A table. `row_id` and `row_class` of a row are the id and the class of its line; a row keeps its place by the former as the page renews itself."""
    heads = tag('tr', *(tag('th', column.head, scope='col', class_=column.class_) for column in columns))
    lines = (tag('tr', *(column.of(row) for column in columns), id=row_id and row_id(row), class_=(row_class and row_class(row)) or None) for row in rows)
    whole = tag('table', tag('caption', name), tag('thead', heads), tag('tbody', *lines))
    return tag('div', whole, class_='wide-table', tabindex='0', role='region', aria_label=name)
