"""The script of an index, and its looks. A click on a column's head sorts the rows by it, and a second click sorts them
the other way round. Buttons keep the rows of their kinds, and a box those that have all of its words. Without the
script the rows stay in their order. The index is XML, so the script has no character that has a meaning in XML."""

from typing import Sequence

from .style import NARROW

SCRIPT = """
const table = document.querySelector("table"), body = table.tBodies[0], heads = [...table.tHead.rows[0].cells];
const collator = new Intl.Collator("en", {numeric: true}), filter = document.getElementById("filter");
const kinds = [...filter.querySelectorAll("button")], box = filter.querySelector("input");
const keyOf = (row, column) => row.cells[column].dataset.key ?? row.cells[column].textContent;
heads.forEach((head, column) => {
  const button = document.createElement("button");
  button.textContent = head.textContent;
  head.replaceChildren(button);
  button.onclick = () => {
    const way = head.getAttribute("aria-sort") === "ascending" ? -1 : 1;
    heads.forEach(one => one.removeAttribute("aria-sort"));
    head.setAttribute("aria-sort", way === 1 ? "ascending" : "descending");
    const compare = (one, other) => way * collator.compare(keyOf(one, column), keyOf(other, column));
    body.append(...[...body.rows].sort(compare));
  };
});
const isPressed = button => button.getAttribute("aria-pressed") === "true";
const show = () => {
  const words = box.value.toLowerCase().split(" "), rows = [...body.rows];
  const wanted = kinds.filter(isPressed).map(button => button.value);
  rows.forEach(row => {
    const text = [...row.cells].map(cell => cell.textContent).join(" ").toLowerCase();
    const isWanted = wanted.length === 0 || wanted.includes(row.cells[1].className);
    row.hidden = !(isWanted ? words.every(word => text.includes(word)) : false);
  });
  filter.querySelector("output").textContent = rows.filter(row => !row.hidden).length + " of " + rows.length;
};
kinds.forEach(button => button.onclick = () => {
  button.setAttribute("aria-pressed", !isPressed(button));
  show();
});
box.oninput = show;
filter.hidden = false;
"""
STYLE = """body{max-width:1400px}table{font-size:14px}th,td{padding:2px 7px}
td{vertical-align:top;border-bottom:1px solid var(--grid)}th{vertical-align:bottom}
td:first-child{min-width:11em}td:nth-child(2){white-space:nowrap}td:nth-child(3){min-width:13em}
td:nth-child(4),td:nth-child(6){min-width:7em}td:last-child{white-space:nowrap}
td.yes,td.no,td.open,td.fault,td.gone{padding:2px 7px;border-color:var(--grid);border-left:6px solid;font-weight:bold}
td.yes{color:var(--yes)}td.no{color:var(--no)}td.open{color:var(--open)}td.fault{color:var(--fault)}
td.gone{color:var(--axis)}input{width:16em}
th button{border:0;padding:0;background:none;cursor:pointer;text-align:left;font-weight:bold}
th[aria-sort=ascending] button::after{content:" \\25B2"}th[aria-sort=descending] button::after{content:" \\25BC"}
@media(max-width:%dpx){table,thead,tbody,tr,td{display:block}thead tr{display:flex;flex-wrap:wrap}tr[hidden],td:empty{
display:none}tbody tr{padding:4px 0 8px}td:nth-child(n){border-bottom:0;min-width:0}
td:nth-child(n+4):not(:empty){display:inline-block}""" % NARROW


def looks_of(columns: Sequence[str]) -> str:
    """The looks of a table with these columns. On a narrow page the cells of a row stand one below the other, and all
    but the first three begin with the name of their column."""
    named = "".join('td:nth-child(%d)::before{content:"%s: ";color:var(--axis)}' % one
                    for one in list(enumerate(columns, 1))[3:])
    return STYLE + named + "}\n"
