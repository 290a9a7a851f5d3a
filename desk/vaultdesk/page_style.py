"""What the page of a vault looks like, and what its register can do; it loads nothing from elsewhere."""

STYLE = """
body { font: 15px/1.45 Georgia, serif; color: #000; background: #fff; max-width: 70em; margin: 2em auto;
  padding: 0 1em }
h1, h2, h3 { font-family: Helvetica, Arial, sans-serif; line-height: 1.2 }
h2 { border-top: 2px solid #000; padding-top: .4em; margin-top: 2em }
table { border-collapse: collapse; margin: .8em 0 }
th, td { border-bottom: 1px solid #999; padding: .2em .6em; text-align: left; vertical-align: top }
thead th { border-bottom: 2px solid #000; white-space: nowrap }
#holds td:nth-child(5), #register td:nth-child(3), #register td:nth-child(11), #rules td,
#callers td:last-child { overflow-wrap: anywhere; min-width: 7em }
.number { text-align: right; font-variant-numeric: tabular-nums; white-space: nowrap }
.wide { overflow-x: auto }
#register { font-size: 12px }
#register td:nth-child(6) { font: 10px monospace; overflow-wrap: anywhere; min-width: 17em }
#register td:nth-child(7), #register td:nth-child(9) { white-space: nowrap }
svg { display: block; max-width: 100%; height: auto } svg text { font: 13px Helvetica, Arial, sans-serif }
.key { list-style: none; padding: 0 } .key li { display: inline-block; margin-right: 1.5em }
.key svg { display: inline }
rect { stroke: #000; stroke-width: 1 } .solid { fill: #444 } .open { fill: #fff } .hatched { fill: url(#hatch) }
th[tabindex] { cursor: pointer }
th[aria-sort=ascending]::after { content: " ▲" } th[aria-sort=descending]::after { content: " ▼" }
@media print {
  body { margin: 0; max-width: none; font-size: 10pt } .tools { display: none } .wide { overflow: visible }
  thead { display: table-header-group } tr, svg { break-inside: avoid } h2, h3 { break-after: avoid }
  #register { font-size: 7pt } #register td:nth-child(6) { font-size: 5pt; min-width: 12em }
}
@page { size: A4 landscape; margin: 15mm }
"""

SCRIPT = """
const table = document.getElementById("register"), body = table.tBodies[0], rows = [...body.rows]
const search = document.getElementById("search"), found = document.getElementById("found")
const numbers = new Set(["version", "size", "days"])

function show() {
  const wanted = search.value.toLowerCase()
  let count = 0
  for (const row of rows) {
    row.hidden = !row.textContent.toLowerCase().includes(wanted)
    if (!row.hidden) count += 1
  }
  found.value = count + " of " + rows.length
}

function value(row, column, isNumber) {
  const text = row.cells[column].textContent
  return isNumber ? Number(text.replaceAll(",", "")) : text
}

function sort(head) {
  const column = head.cellIndex, isNumber = numbers.has(head.textContent), turn = head.ariaSort === "ascending" ? -1 : 1
  for (const it of table.tHead.rows[0].cells) it.removeAttribute("aria-sort")
  head.setAttribute("aria-sort", turn === 1 ? "ascending" : "descending")
  rows.sort((a, b) => {
    const x = value(a, column, isNumber), y = value(b, column, isNumber)
    return x < y ? -turn : x > y ? turn : 0
  })
  body.append(...rows)
}

// a head is no button: on paper each page repeats the heads, and a browser leaves buttons out there
for (const head of table.tHead.rows[0].cells) {
  head.tabIndex = 0
  head.addEventListener("click", () => sort(head))
  head.addEventListener("keydown", event => {
    if (event.key !== "Enter" && event.key !== " ") return
    event.preventDefault()
    sort(head)
  })
}
search.addEventListener("input", show)
show()
"""

HATCH = (
    '<svg width="0" height="0" aria-hidden="true"><defs><pattern id="hatch" width="6" height="6"'
    ' patternUnits="userSpaceOnUse" patternTransform="rotate(45)"><path d="M0 0V6" stroke="#000" stroke-width="3"/>'
    "</pattern></defs></svg>"
)
