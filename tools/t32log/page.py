"""Makes the page of a picture: one file, with the rows as data and the script that draws those in view."""
import json
import os
from html import escape

from .picture import MARKS, PLACES, STYLES, Picture, Row
from .svg import LEGEND, ROW, TEXT, TOP, Legend, svg_head

HERE = os.path.dirname(os.path.abspath(__file__))
LEGEND_WIDTH = 620


def file_text(name: str) -> str:
    with open(os.path.join(HERE, name), encoding="utf-8") as file:
        return file.read()


def row_data(row: Row) -> list:
    """A row, short: what the script calls PLACE, TEXT, LINE, MARKS, PIDS, EVENT and CLUSTER."""
    marks = [[MARKS.index(mark[0]), *mark[1:]] for mark in row.marks]
    return [row.place, row.text, row.line, marks, list(row.pids)] + ([row.event, row.cluster] if row.event else [])


def data_of(picture: Picture) -> str:
    data = {
        "kinds": MARKS,
        "styles": STYLES,
        "sizes": {"row": ROW, "top": TOP, "text": TEXT, "places": PLACES},
        "width": picture.width,
        "names": picture.names,
        "columns": [{"cluster": c.cluster, "pid": c.pid, "x": c.x, "backup": c.is_backup} for c in picture.columns],
        "lanes": [{"cluster": lane.cluster, "x": lane.x, "width": lane.width} for lane in picture.lanes],
        "lives": picture.lives,
        "spans": [[column, first, last, STYLES.index(style)] for column, first, last, style in picture.spans],
        "rows": [row_data(row) for row in picture.rows],
    }
    return json.dumps(data, ensure_ascii=False, separators=(",", ":")).replace("<", "\\u003c")


def legend_svg(picture: Picture) -> str:
    legend = Legend({kind for kind, _ in LEGEND}, picture.left_out, LEGEND_WIDTH)
    return svg_head(LEGEND_WIDTH, legend.height) + "".join(legend.parts) + "</svg>"


def page_of(picture: Picture) -> str:
    places = sum(row.place is not None for row in picture.rows)
    losses = sum(row.event == "lost" for row in picture.rows)
    title = f"A run of {places} entries" + (f", {losses} loss" + ("es" if losses > 1 else "") if losses else "")
    page = file_text("page.html").replace("{{TITLE}}", escape(title)).replace("{{LEGEND}}", legend_svg(picture))
    left_out = "".join(f"<span>{escape(words)}</span>\n" for words in picture.left_out)
    page = page.replace("{{LEFT_OUT}}", left_out)
    before, behind = page.split("{{DATA}}")
    return before + data_of(picture) + behind.replace("{{SCRIPT}}", file_text("page.js"))
