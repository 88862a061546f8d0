"""How a report looks on light and dark screens and on paper, its search field, and what a browser
lets it do."""
from __future__ import annotations

import base64
import hashlib

STYLE = """
:root { --ground: #f6f6f4; --sheet: #ffffff; --ink: #1d2126; --muted: #5f6771; --rule: #ececea;
  --grid: #e4e5e3; --axis: #7d848b; --replayed: #5f90bf; --median: #174a7c; --bound: #1d2126;
  --configured: #a3690f; --good: #2c7a51; --bad: #b3362f; --second: #b07a2c;
  --load-1: #7fa8cf; --load-2: #3f79b0; --load-3: #2c8c7e; --load-4: #b08a1c; --load-5: #c9601d;
  --load-6: #a3201b; --tree: #f1e3b4; color-scheme: light dark; }
@media (prefers-color-scheme: dark) {
:root { --ground: #15171a; --sheet: #1d2024; --ink: #e4e6e8; --muted: #a0a8b1; --rule: #2a2e33;
  --grid: #2e3237; --axis: #7f8790; --replayed: #4f7fae; --median: #b9dafb; --bound: #f0f1f2;
  --configured: #d9a441; --good: #63bd8d; --bad: #ec7a72; --second: #c9994e;
  --load-1: #4a7195; --load-2: #68a5dc; --load-3: #4fc0ac; --load-4: #d9b64a; --load-5: #ef8b4a;
  --load-6: #ff6b60; --tree: #4a4220; } }
* { box-sizing: border-box; }
body { margin: 0; background: var(--ground); color: var(--ink);
  font: 14px/1.5 system-ui, -apple-system, "Segoe UI", Roboto, "DejaVu Sans", sans-serif; }
main { max-width: 1200px; margin: 0 auto; padding: 28px 20px 48px; }
h1 { font-size: 24px; margin: 0 0 2px; letter-spacing: -.01em; overflow-wrap: anywhere; }
h2 { font-size: 16px; margin: 0 0 2px; }
p { margin: 0 0 10px; } .muted { color: var(--muted); fill: var(--muted); }
header p { color: var(--muted); } nav { margin: 10px 0 0; } nav a { margin-right: 12px; }
a { color: var(--median); }
section { background: var(--sheet); border: 1px solid var(--rule); border-radius: 8px;
  padding: 16px 20px; margin-top: 16px; overflow-x: auto; }
.answer { display: inline-block; padding: 2px 10px; border-radius: 999px; font-weight: 600;
  border: 1px solid currentColor; margin: 0 6px 4px 0; }
.good { color: var(--good); } .bad { color: var(--bad); }
.answers { margin-top: 10px; } .findings { list-style: none; margin: 8px 0 0; padding: 0; }
.findings li { color: var(--bad); border-left: 4px solid var(--bad); background: var(--sheet);
  padding: 3px 10px; margin: 0 0 4px; overflow-wrap: anywhere; }
.findings b { display: inline-block; min-width: 8.2em; }
@media (max-width: 720px) { .findings b { display: block; } #words .where { display: none; }
  #words td.words { min-width: 0; } caption { max-width: calc(100vw - 84px); } }
.late-row { color: var(--bad); }
.cards { display: grid; grid-template-columns: repeat(6, 1fr); gap: 10px; margin: 16px 0 0; }
@media (max-width: 720px) { .cards { grid-template-columns: repeat(2, 1fr); } }
.card { background: var(--sheet); border: 1px solid var(--rule); border-radius: 8px;
  padding: 9px 12px; min-width: 0; display: flex; flex-direction: column-reverse;
  justify-content: flex-end; }
.card dd { margin: 0; font-size: 20px; font-weight: 600; font-variant-numeric: tabular-nums;
  letter-spacing: -.02em; overflow-wrap: anywhere; }
.card dt { color: var(--muted); font-size: 12.5px; }
.on-paper { display: none; } #cover { margin-bottom: 24px; }
#cover table { margin-top: 12px; font-size: 13.5px; }
#cover td, #cover tbody th { padding: 5px 10px 5px 0; white-space: pre-line;
  overflow-wrap: anywhere; }
#cover .signatures td, #cover .signatures tbody th { padding-top: 26px; min-width: 6em; }
#cover .signatures td:last-child { min-width: 14em; }
#cover #made, #made { font-size: 12.5px; } #made td { white-space: normal; }
#cover td, #cover th, #made td, #made th { vertical-align: baseline; }
#made code { overflow-wrap: anywhere; } #cover #made th { white-space: nowrap; }
.find { margin-top: 16px; } .find input { font: inherit; padding: 4px 8px; width: 22em;
  max-width: 100%; }
.box { max-height: 560px; overflow: auto; } #words .box { max-height: none; }
.long { content-visibility: auto; contain-intrinsic-size: auto 560px; }
table { border-collapse: collapse; font-variant-numeric: tabular-nums; font-size: 12.5px;
  width: 100%; }
caption { text-align: left; font-size: 16px; font-weight: 600; padding-bottom: 4px; }
thead th { text-align: left; font-weight: 600; color: var(--muted); background: var(--sheet);
  position: sticky; top: 0; vertical-align: bottom; box-shadow: inset 0 -1px var(--axis); }
th, td { padding: 3px 8px 3px 0; white-space: nowrap; }
td, tbody th { border-bottom: 1px solid var(--rule); text-align: left; font-weight: 400; }
thead th { white-space: normal; } td.words { white-space: normal; min-width: 11em; }
th.words, td.words { padding-left: 10px; }
.number, .place, tbody th.number { text-align: right; } tr.over td, tr.over th { color: var(--bad);
  font-weight: 600; } tr.over th::before { content: "! "; }
svg { display: block; width: 100%; min-width: 760px; height: auto; margin-top: 8px; }
svg text { font-size: 12.5px; fill: var(--ink); } svg text.muted { fill: var(--muted); }
svg text.strong { font-weight: 600; } svg text.bad { fill: var(--bad); font-weight: 600; }
svg text.small { font-size: 10px; fill: var(--muted); }
.grid { stroke: var(--grid); } .rule { stroke: var(--rule); } .axis { stroke: var(--axis); }
.replayed { fill: var(--replayed); } .median { fill: var(--median); }
.nearly { stroke: var(--median); stroke-width: 1.6; }
.bound { stroke: var(--bound); stroke-width: 2.4; }
.margin { stroke: var(--good); stroke-width: 2; stroke-dasharray: 2 3; }
.short { stroke: var(--bad); stroke-width: 2; stroke-dasharray: 6 3; }
.late { fill: var(--bad); } .drop { fill: var(--bad); }
.side-A { fill: var(--replayed); } .side-B { fill: var(--second); }
.configured { fill: var(--sheet); stroke: var(--configured); stroke-width: 1.8; }
.reason { fill: none; stroke: var(--bad); stroke-width: 1.8; }
.accepted { fill: var(--median); } .delivered { fill: var(--good); }
.passed { fill: var(--sheet); stroke: var(--axis); stroke-width: 1.2; }
.lane-none { stroke: var(--grid); stroke-width: 4.6; }
.lane-A { stroke: var(--replayed); stroke-width: 4.6; }
.lane-B { stroke: var(--second); stroke-width: 4.6; } .lane-gone { fill: var(--sheet); }
.lane-silent { stroke: var(--bad); stroke-width: 1.6; stroke-dasharray: 7 4; }
.lane-busy { stroke: var(--bad); stroke-width: 6.4; }
.lane-wrong { stroke: var(--bad); stroke-width: 6.4; stroke-dasharray: 1.4 1.6; }
svg text.lane-name { font-size: 10.5px; }
.way { stroke: var(--axis); stroke-width: .6; opacity: .6; }
.asked { fill: none; stroke: var(--configured); stroke-width: 1; }
svg.map { max-width: var(--most); min-width: var(--least); }
.switch { fill: var(--sheet); stroke: var(--axis); stroke-width: 1.2; }
.cable { fill: none; stroke-linejoin: round; } .aside { opacity: .38; }
.idle { stroke: var(--grid); stroke-width: 1.2; }
.tree { fill: none; stroke: var(--tree); stroke-width: 13; stroke-linecap: round; }
.load-0 { stroke: var(--axis); stroke-width: 1.4; stroke-dasharray: 2 3; }
.load-1 { stroke: var(--load-1); stroke-width: 1.8; }
.load-2 { stroke: var(--load-2); stroke-width: 2.4; }
.load-3 { stroke: var(--load-3); stroke-width: 3.2; }
.load-4 { stroke: var(--load-4); stroke-width: 4.2; }
.load-5 { stroke: var(--load-5); stroke-width: 5.2; }
.load-6 { stroke: var(--load-6); stroke-width: 6.4; }
.load-7 { stroke: var(--bad); stroke-width: 8; }
.wrong { stroke: var(--bad); stroke-width: 5; stroke-dasharray: 7 3; }
footer { color: var(--muted); margin-top: 20px; font-size: 13px; }
footer code { font-size: 12px; overflow-wrap: anywhere; }
@page { size: A4 portrait; margin: 9mm 8mm 12mm; }
@page wide { size: A4 landscape; margin: 8mm 8mm 12mm; }
@media print {
  :root { --ground: #ffffff; --sheet: #ffffff; --ink: #000000; --muted: #444a52; --rule: #dddddd;
    --grid: #dddddd; --axis: #666c72; --replayed: #5f90bf; --median: #174a7c; --bound: #000000;
    --configured: #a3690f; --good: #2c7a51; --bad: #b3362f; --second: #b07a2c;
    --load-1: #7fa8cf; --load-2: #3f79b0; --load-3: #2c8c7e; --load-4: #b08a1c; --load-5: #c9601d;
    --load-6: #a3201b; --tree: #f1e3b4; color-scheme: light; }
  body { font-size: 8pt; line-height: 1.3; } main { max-width: none; padding: 0; }
  h1 { font-size: 14pt; } h2, caption { font-size: 9pt; } p { margin: 0 0 3pt; }
  section { overflow: visible; padding: 4pt 0 0; margin-top: 5pt; border-width: 1px 0 0;
    border-radius: 0; }
  svg, svg.map { min-width: 0; margin-top: 2pt; break-inside: avoid; }
  svg.map { max-height: 235mm; }
  svg text, svg text.small, svg text.lane-name { font-size: 12.8px; }
  h2, section > p, caption { break-after: avoid; }
  section > p, .findings li, .card, .small { break-inside: avoid; }
  nav, .find, .screen { display: none; } .on-paper { display: inline; }
  p.on-paper { display: block; margin-top: 5pt; }
  #cover { break-after: page; } .box { max-height: none; overflow: visible; }
  .cards { grid-template-columns: repeat(6, 1fr); gap: 3pt; margin: 6pt 0 0; }
  .card { padding: 2pt 5pt; } .card dd { font-size: 11pt; } .card dt { font-size: 7pt; }
  .wide { page: wide; } .columns-2 .box { columns: 2; } .columns-3 .box { columns: 3; }
  .box { column-gap: 16px; } .columns-2:not(.small), .columns-3:not(.small) { break-before: page; }
  table, #made, #cover #made, footer, footer code { font-size: 7pt; line-height: 1.2; }
  table { font-family: "Liberation Sans", Arial, Helvetica, "DejaVu Sans Condensed", sans-serif; }
  #cover table { font-size: 9pt; } .long { content-visibility: visible; }
  th, td { padding: 0 5px 0 0; } td.words { min-width: 9em; } .broken td { white-space: normal; }
  tbody th { white-space: nowrap; } tr.over td { font-weight: 400; }
  thead th { position: static; box-shadow: none; border-bottom: 1px solid var(--axis); }
  tr { break-inside: avoid; } tr[hidden]:not(.screen) { display: table-row; } }
"""

# Shows of all tables the rows that have each word: a number as the row's head or another name, a
# word at the begin of one. Without it the page works as well.
SCRIPT = """
(() => {
  const find = document.getElementById('find'), told = document.getElementById('found');
  find.closest('p').hidden = false;
  let waiting = 0;
  const look = () => {
    const words = find.value.toLowerCase().split(' ').filter(word => word);
    let shown = 0;
    for (const row of document.querySelectorAll('tbody tr')) {
      const names = [...row.cells].filter(cell => cell.scope || cell.className !== 'number')
        .map(cell => (cell.lastElementChild || cell).textContent.toLowerCase());
      row.hidden = !words.every(word => names.some(
        name => /^[0-9]+$/.test(word) ? name === word : name.startsWith(word)));
      shown += !row.hidden;
    }
    told.textContent = words.length ? shown + ' rows' : '';
  };
  find.addEventListener('input', () => { clearTimeout(waiting); waiting = setTimeout(look, 150); });
})();
"""

# A page loads nothing, and runs this script alone, whatever else might stand in it.
DIGEST = base64.b64encode(hashlib.sha256(SCRIPT.encode()).digest()).decode()
POLICY = (
    f"default-src 'none'; style-src 'unsafe-inline'; script-src 'sha256-{DIGEST}'; "
    "base-uri 'none'; form-action 'none'"
)
