"""What pictures and pages look like: in the light, in the dark, and printed."""

# Each label has its colour in the light and in the dark, the width of its edges, and how they are dashed.
LOOKS = {
    "Seal": ("#00735a", "#4cc9a5", 1.5, "none"),
    "Async": ("#1f5fa8", "#7db4f0", 1.5, "9 3"),
    "Run": ("#9a5700", "#e8a94c", 2.5, "6 4"),
    "Inst": ("#8a2f8f", "#dc90e0", 3, "2 3"),
    "Diverge": ("#b3261e", "#ff8a80", 4, "none"),
}

MONO = "ui-monospace,SFMono-Regular,Menlo,Consolas,'DejaVu Sans Mono',monospace"


def of_labels(column):
    """The colours of edges and texts, of one column of the table."""
    return "\n".join(f".edge.{it}{{stroke:{looks[column]}}}.head.{it},.label.{it}{{fill:{looks[column]}}}" for it, looks in LOOKS.items())


LINES = "\n".join(f".edge.{it}{{stroke-width:{width};stroke-dasharray:{dashes}}}" for it, (_, _, width, dashes) in LOOKS.items())

PICTURE = f"""
.topology text{{font:12px {MONO};fill:#1b1b1b}}
.topology .name,.topology .label,.topology .new{{font-weight:700}}
.topology .heading{{font:700 14px system-ui,sans-serif}}
.topology .aside,.topology .mode{{fill:#5a5a5a}}.topology .new{{fill:#1b1b1b}}
.topology .ground{{fill:#fcfcfc}}.topology .body{{fill:#fff;stroke:#555}}.topology .source{{fill:#eaf1f8}}
.topology .order{{fill:#fff6dd;stroke-width:2.5}}.topology .band{{fill:#9a5700}}
.topology .frame{{fill:none;stroke:#777;stroke-width:1.5;stroke-dasharray:1 5;stroke-linecap:round}}
.topology .edge{{fill:none}}.topology .mark{{fill:#1b1b1b}}.topology .number{{fill:#fff;font-weight:700}}
{LINES}
{of_labels(0)}
@media screen and (prefers-color-scheme:dark){{
.topology text,.topology .new{{fill:#e8e8e8}}.topology .aside,.topology .mode{{fill:#a8a8a8}}
.topology .ground{{fill:#16181b}}.topology .body{{fill:#22262b;stroke:#8a8a8a}}.topology .source{{fill:#1d2b3a}}
.topology .order{{fill:#3a3018}}.topology .band{{fill:#e8a94c}}.topology .frame{{stroke:#999}}
.topology .mark{{fill:#e8e8e8}}.topology .number{{fill:#16181b}}
{of_labels(1)}
}}
""".replace(".edge.", ".topology .edge.").replace(",.label.", ",.topology .label.").replace(".head.", ".topology .head.")

PAGE = f"""
:root{{color-scheme:light dark}}
body{{font:15px/1.5 system-ui,sans-serif;margin:1.5rem;color:#1b1b1b;background:#fff;overflow-wrap:break-word}}
h1{{font-size:1.5rem}}h2{{font-size:1.2rem;margin-top:2rem}}h3{{font-size:1.05rem}}h4{{font-size:1rem;margin:.3rem 0}}
code,pre{{font:13px {MONO}}}pre{{background:#f4f4f4;padding:.6rem;overflow:auto;white-space:pre}}pre mark{{color:inherit}}
mark.rule{{background:#ffd9d4;font-weight:700;outline:1px solid #b3261e}}mark.behind{{background:#fff0c8}}
.picture{{overflow:auto;border:1px solid #ccc;background:#fcfcfc;max-width:max-content}}
.picture svg{{display:block;max-width:100%;height:auto}}.wide{{overflow:auto}}
input+label{{margin-right:1.5rem}}figure{{margin:.5rem 0}}
input:focus-visible,a:focus-visible,summary:focus-visible,.picture:focus-visible{{outline:3px solid #1f5fa8}}
#show-after:checked~main .before,#show-before:checked~main .after{{display:none}}
table{{border-collapse:collapse}}th,td{{border-bottom:1px solid #ccc;padding:.2rem .8rem .2rem 0;text-align:left;vertical-align:top}}
tbody th{{font-weight:400}}
.key{{list-style:none;padding:0}}.key svg{{vertical-align:middle;margin-right:.6rem}}
.card{{border-left:4px solid #1b1b1b;padding:.1rem .8rem;margin:1rem 0}}.card:target{{background:#fff6dd}}
.two{{display:flex;flex-wrap:wrap;gap:1rem 3rem}}.rows{{margin:.2rem 0 .6rem;padding-left:1.2rem}}
.apart{{background:#ffd9d4;font-weight:700}}.steps li{{margin:.4rem 0}}.steps div{{margin-left:1.2rem}}
.worse{{border-left:4px solid #b3261e;padding-left:.6rem}}
{"".join(f".chip.{it}{{color:{looks[0]}}}" for it, looks in LOOKS.items())}
@media screen and (prefers-color-scheme:dark){{
body{{color:#e8e8e8;background:#111315}}pre{{background:#1c1f23}}.picture{{background:#16181b;border-color:#444}}
mark.rule,.apart{{background:#5c211d}}mark.behind,.card:target{{background:#3a3018}}.card{{border-color:#e8e8e8}}
th,td{{border-color:#444}}
{"".join(f".chip.{it}{{color:{looks[1]}}}" for it, looks in LOOKS.items())}
}}
@media print{{
body{{margin:0}}input,input+label{{display:none}}.picture{{overflow:visible;border:0}}.picture svg{{min-width:0!important}}.wide{{overflow:visible}}
#show-after:checked~main .before,#show-before:checked~main .after{{display:block}}
section,figure,tr{{break-inside:avoid}}
}}
"""
