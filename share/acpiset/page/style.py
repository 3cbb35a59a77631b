"""The style sheet of a page: light and dark by the reader's setting, and in print without what is folded."""

LIGHT = """
--back: #fff; --text: #1b232c; --quiet: #56616d; --rule: #c9d1d9; --soft: #f4f6f8; --hatch: #dfe4e9; --bad: #b3261e; --advice: #8a5300;
--good: #1c6b36; --good-soft: #ddefe2; --bad-soft: #fbdeda; --advice-soft: #fcecd2; --link: #0b57a4;
--c0: #33639c; --c1: #a84b12; --c2: #39763a; --c3: #82519a; --c4: #5c6670; --c5: #7d5a2c; --c6: #9a3f6a; --c7: #1f7378;
--h0: #eef4fb; --h1: #cfe0f3; --h2: #a6c6e8; --h3: #6fa2d5; --h4: #3a75b4; --h5: #1f4e86;
"""
DARK = """
--back: #13181d; --text: #e7ebef; --quiet: #a3aeb9; --rule: #3b4650; --soft: #1c232a; --hatch: #2a333c; --bad: #ff8a80; --advice: #ffc16b;
--good: #83d39a; --good-soft: #17372a; --bad-soft: #4a1f1d; --advice-soft: #43310f; --link: #8dc2ff;
--c0: #3f76b5; --c1: #b75a20; --c2: #46884a; --c3: #9162ab; --c4: #6b7782; --c5: #8f6b3a; --c6: #ad4f7d; --c7: #2b858b;
--h0: #1c2a3a; --h1: #24405f; --h2: #2f5b8a; --h3: #4480bc; --h4: #7fb0e0; --h5: #c2dcf6;
"""
COLOURS = "".join(f".c{at} {{ fill: var(--c{at}); stroke: var(--c{at}); }}\n" for at in range(8))
SHADES = "".join(f"rect.h{at}, path.h{at} {{ fill: var(--h{at}); }}\n" for at in range(6))

SHEET = f"""
:root {{ color-scheme: light dark; {LIGHT} }}
@media screen and (prefers-color-scheme: dark) {{ :root {{ {DARK} }} }}
* {{ box-sizing: border-box; }}
body {{ font: 15px/1.5 system-ui, sans-serif; color: var(--text); background: var(--back); }}
body {{ max-width: 1024px; margin: 0 auto; padding: 24px 32px 64px; }}
h1 {{ font-size: 22px; margin: 0 0 14px; overflow-wrap: anywhere; }}
h2 {{ font-size: 17px; margin: 36px 0 10px; padding-top: 14px; border-top: 1px solid var(--rule); }}
h3 {{ font-size: 15px; margin: 0 0 6px; font-weight: 400; overflow-wrap: anywhere; }}
a {{ color: var(--link); }}
p {{ margin: 4px 0; }}
code, pre {{ font-family: ui-monospace, monospace; font-size: 13px; }}
pre {{ background: var(--back); border: 1px solid var(--rule); padding: 8px; overflow: auto; max-height: 60vh; }}
summary {{ cursor: pointer; }}
dl {{ display: flex; flex-wrap: wrap; gap: 2px 18px; margin: 6px 0; font-size: 13.5px; }}
dt {{ color: var(--quiet); }}
dd {{ margin: 0 0 0 -12px; font-family: ui-monospace, monospace; }}
.verdict {{ border: 2px solid; border-left-width: 10px; border-radius: 6px; padding: 10px 16px; font-size: 17px; background: var(--soft); }}
.verdict strong {{ font-size: 20px; margin-right: 10px; }}
.verdict.yes {{ border-color: var(--good); }}
.verdict.no {{ border-color: var(--bad); }}
.verdict.none {{ border-color: var(--quiet); border-style: dashed; border-left-style: solid; }}
.card {{ border: 1px solid var(--rule); border-left: 6px solid var(--bad); border-radius: 6px; background: var(--soft); }}
.card {{ padding: 10px 16px; margin: 12px 0; }}
.card.advice {{ border-left: 6px double var(--advice); }}
.card h3 code {{ color: var(--quiet); margin-left: 6px; }}
.tag {{ display: inline-block; border-radius: 4px; padding: 0 7px; margin-right: 6px; font-size: 13px; font-weight: 600; }}
.tag {{ color: var(--back); background: var(--bad); }}
.tag.advice {{ background: var(--advice); }}
.where {{ font-weight: 600; }}
.note, .found, .legend {{ color: var(--quiet); font-size: 13.5px; }}
.found {{ margin: 4px 0; padding-left: 20px; }}
.key {{ margin-right: 20px; white-space: nowrap; }}
.key svg {{ display: inline-block; vertical-align: -1px; }}
svg {{ display: block; max-width: 100%; height: auto; }}
text {{ fill: var(--text); stroke: none; font: 12px system-ui, sans-serif; }}
text.strong {{ font-weight: 600; font-size: 12.5px; }}
text.small {{ font-size: 11px; fill: var(--quiet); }}
text.tiny {{ font-size: 10px; fill: var(--quiet); }}
text.small.fault {{ fill: var(--bad); font-weight: 600; }}
text.small.advice {{ fill: var(--advice); font-weight: 600; }}
:target {{ outline: 3px solid var(--link); outline-offset: 3px; }}
{COLOURS}{SHADES}
.table {{ fill: var(--soft); stroke: var(--rule); stroke-width: 1.3; }}
.table.contents, .table.partly {{ stroke: var(--good); fill: var(--good-soft); }}
.table.unread {{ stroke-dasharray: 5 3; fill: none; }}
rect.table.fault, rect.node.fault, rect.cache.fault {{ stroke: var(--bad); fill: var(--bad-soft); stroke-width: 2.5; }}
rect.table.advice, rect.node.advice, rect.cache.advice {{ stroke: var(--advice); fill: var(--advice-soft); stroke-width: 2.5; }}
.symbol {{ fill: none; stroke: var(--quiet); }}
.symbol.full {{ fill: var(--good); stroke: none; }}
.symbol.contents, .symbol.partly {{ stroke: var(--good); }}
.symbol.unread {{ stroke-dasharray: 2 2; }}
.wire {{ fill: none; stroke: var(--quiet); stroke-width: 1.2; }}
.rule {{ fill: none; stroke: var(--rule); }}
.gap {{ fill: url(#hatch); stroke: var(--rule); stroke-width: .5; }}
.hatch {{ stroke: var(--hatch); stroke-width: 3; }}
.cross {{ stroke: var(--bad); stroke-width: 1.6; }}
.bar {{ stroke-width: 1; }}
.bar.pluggable {{ fill-opacity: .25; stroke-dasharray: 6 3; stroke-width: 1.5; }}
.bar.lasting {{ stroke: var(--text); stroke-width: 2; }}
.bar.fault {{ stroke: var(--bad); stroke-width: 3; fill-opacity: .85; }}
.bar.advice {{ stroke: var(--advice); stroke-width: 3; }}
.bar.pluggable.fault {{ fill-opacity: .25; }}
text.inside {{ fill: #fff; font-weight: 600; font-size: 11.5px; }}
text.inside.outlined {{ fill: var(--text); }}
rect.band.fault {{ fill: url(#cross); }}
rect.band.window {{ fill: none; }}
rect.edge {{ fill: none; stroke: var(--bad); stroke-width: 1.5; pointer-events: none; }}
rect.edge.window {{ stroke: var(--quiet); stroke-dasharray: 4 3; }}
text.band {{ font-weight: 700; }}
text.band.fault {{ fill: var(--bad); }}
text.band.window {{ fill: var(--quiet); }}
rect.badge {{ fill: var(--bad); }}
rect.badge.advice {{ fill: var(--advice); }}
text.badge {{ fill: var(--back); font-size: 11px; font-weight: 600; }}
rect.cell.nowhere, path.cell.nowhere {{ fill: var(--hatch); }}
text.cell {{ font-size: 11.5px; fill: var(--text); }}
text.cell.h3, text.cell.h4, text.cell.h5 {{ fill: var(--back); }}
.asymmetric {{ fill: none; stroke: var(--advice); stroke-width: 2; }}
.asymmetric.fine {{ stroke-width: .8; }}
.asymmetric.fine.advice {{ stroke-width: 3; }}
.isa {{ fill: var(--soft); stroke: var(--rule); }}
.isa.named {{ stroke: var(--quiet); stroke-width: 1.5; }}
.override {{ fill: none; stroke: var(--quiet); stroke-width: 1.5; }}
.end {{ fill: var(--quiet); }}
.override.fault {{ stroke: var(--bad); stroke-width: 2.5; }}
.end.fault {{ fill: var(--bad); }}
.pin {{ stroke: var(--text); stroke-width: 1.3; stroke-dasharray: 3 2; }}
.pin.fault {{ stroke: var(--bad); }}
.pin.advice {{ stroke: var(--advice); }}
.cpu {{ stroke-width: 1.2; }}
.cpu.capable {{ fill-opacity: .15; }}
.cpu.off {{ fill: none; stroke-dasharray: 2 2; }}
.cpu.fine {{ stroke-width: .8; }}
.cpu.fine.off {{ stroke-dasharray: none; }}
.cpu .fault {{ stroke: var(--bad); stroke-width: 3; stroke-dasharray: none; }}
.cpu .advice {{ stroke: var(--advice); stroke-width: 3; stroke-dasharray: none; }}
text.cpu {{ fill: #fff; fill-opacity: 1; font-size: 10px; }}
text.cpu.capable, text.cpu.off {{ fill: var(--text); }}
rect.node {{ fill: var(--back); stroke: var(--quiet); }}
rect.cache {{ fill: var(--soft); stroke: var(--c7); }}
.ring {{ fill: none; stroke: var(--bad); stroke-width: 2.5; }}
.arrow {{ fill: var(--bad); }}
@media print {{
  body {{ max-width: none; padding: 0; }}
  h2, .legend {{ break-after: avoid; }}
  .card, svg {{ break-inside: avoid; }}
  .tag, .tag.advice {{ color: var(--text); background: none; border: 1px solid; }}
  section.lines {{ display: none; }}
}}
"""
