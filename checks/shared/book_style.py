"""How the book looks, and what its first page says."""

STYLE = """
:root{color-scheme:light dark;--paper:#fdfcf9;--ink:#1d1d1f;--soft:#66635c;--line:#dcd8ce;--code:#f4f1ea;--link:#1f5fa8;--own:#8a3b12;--mark:#b9822b}
@media(prefers-color-scheme:dark){:root{--paper:#17181b;--ink:#e4e2dc;--soft:#9c988e;--line:#35363b;--code:#1f2125;--link:#8ab8f0;--own:#f0a878;--mark:#d9a44a}}
*{box-sizing:border-box}
html{scroll-padding-top:3.2rem}
body{margin:0;background:var(--paper);color:var(--ink);font:17px/1.55 Georgia,"Iowan Old Style","Times New Roman",serif;overflow-wrap:break-word}
main{max-width:62rem;margin:0 auto;padding:0 1.1rem 6rem}
nav.bar{position:sticky;top:0;background:var(--paper);border-bottom:1px solid var(--line);z-index:1;font:15px/2.6 system-ui,sans-serif}
nav.bar div{max-width:62rem;margin:0 auto;padding:0 1.1rem;display:flex;gap:1.2rem;overflow-x:auto;white-space:nowrap}
a{color:var(--link);text-decoration:none}
a:hover{text-decoration:underline}
h1{font-size:2.1rem;line-height:1.2;margin:2.5rem 0 .6rem}
h2{font-size:1.75rem;margin:4.5rem 0 .4rem;border-bottom:2px solid var(--ink);padding-bottom:.3rem}
h3{font-size:1.3rem;margin:3rem 0 .3rem}
h4{font-size:1.12rem;margin:2.4rem 0 .3rem}
h5{font-size:1.02rem;margin:2rem 0 .2rem}
h6{font:600 .95rem/1.4 system-ui,sans-serif;margin:2rem 0 0}
.path{font:.78rem/1.5 ui-monospace,monospace;color:var(--soft);margin:0 0 .4rem}
.lead{margin:.1rem 0 .5rem}
.d{margin:.55rem 0;padding-left:.75rem;border-left:3px solid var(--line)}
.d.a{border-left-color:var(--mark)}
.d:target,.d:has(:target){border-left-color:var(--link);background:color-mix(in srgb,var(--link) 9%,transparent)}
.d p{margin:.1rem 0 .15rem;font-style:italic}
.d p.up,.d p.row{font:.78rem/1.5 system-ui,sans-serif;color:var(--soft)}
.d p.up{float:right;margin:.25rem .5rem 0 1.2rem}
.d p.row code{font-size:.82rem}
.tested{font:.82rem/1.5 system-ui,sans-serif;color:var(--soft);margin:.1rem 0 .5rem}
details.tested{border:0;padding:0}
.tested summary{font:inherit}
.tested code{white-space:pre-wrap;font-size:.82rem}
.d p.name{font:600 .85rem/1.6 ui-monospace,monospace;color:var(--own)}
pre{margin:0;padding:.35rem .6rem;background:var(--code);border-radius:4px;font:14px/1.5 "DejaVu Sans Mono",ui-monospace,Menlo,Consolas,monospace;white-space:pre-wrap;overflow-wrap:anywhere;tab-size:2}
code{font:.86em ui-monospace,Menlo,Consolas,"DejaVu Sans Mono",monospace}
pre b{color:var(--own);font-weight:600}
details{margin:.7rem 0;padding:.3rem .8rem;border:1px solid var(--line);border-radius:6px}
summary{cursor:pointer;font:600 .95rem/1.9 system-ui,sans-serif}
details ul{padding-left:1.2rem;margin:.3rem 0}
details li{margin:.25rem 0;font-size:.95rem}
table{border-collapse:collapse;margin:.8rem 0;font-size:.95rem}
td,th{border-bottom:1px solid var(--line);padding:.2rem .9rem .2rem 0;text-align:left;vertical-align:top}
td.n{text-align:right;font-variant-numeric:tabular-nums}
.toc ul{list-style:none;padding-left:1.1rem;margin:0}
.toc>ul{padding-left:0}
.toc span{color:var(--soft);font-size:.85rem}
.toc span.b{color:var(--mark);margin-left:.3rem}
.index{columns:17rem;font:.85rem/1.7 ui-monospace,monospace;column-gap:1.5rem}
.index div{break-inside:avoid;overflow-wrap:anywhere}
.key{display:inline-block;width:.9rem;height:.9rem;background:var(--mark);vertical-align:-.1rem;margin-right:.3rem}
@media(max-width:40rem){body{font-size:16px}pre{font-size:12.5px;padding:.3rem .4rem}h1{font-size:1.7rem}h2{font-size:1.45rem}.d{padding-left:.5rem}main{padding:0 .7rem 4rem}}
@media print{nav.bar{display:none}}
"""

FIRST_PAGE = """<h1>What must be believed</h1>
<p>A prover has checked that every function of this repository keeps its contract. It cannot check that a contract says what you want. What is left to
believe is what the words of contracts mean: the definitions in this book. They are, as far as we know, the first whole mechanised meaning of
GraphQL October 2021 that a person can read.</p>
<p>Most readers care for one call. <code>answer</code> takes the texts of a schema and a query and a resolver, and gives the bytes of the response. Its clauses,
below, say that what it gives is a response to what the two texts mean, with data and errors that explain each other; that each refusal has its
cause; and that a valid request is answered unless memory runs out. Whoever believes that has to read what these clauses reach and nothing else:
<b>{definitions} definitions</b> in {lines} lines, {files} files of {crates} crates. They stand on {words} words of the toolchain's library, such as
<code>length</code> and <code>lookup</code>.</p>
<p><span class=key></span>A definition below <code>answer</code> has a bar of this colour. The rest of the {all_definitions} definitions, {all_lines} lines, is there for other calls
and for laws: facts about the definitions alone, which are proved too, and show that they fit together.</p>
<p>You need to believe no code, no proof, and none of the {bridge} definitions in <code>specs/bridge/</code>, which only carry code to meaning.</p>
<p>The book follows the standard, section by section; where a section is read in a way of ours, it says so first. Within a section definitions stand in the
order in which they build on each other. Each name leads to where it is defined. A line "Example" is a fact about one small case, and is proved too;
one that begins "Tested" is a request of the tests, which only runs.
<code>docs/READING_CONTRACTS.md</code> explains the notation in five minutes. If a definition says something else than the standard, and nothing here says so,
that is a fault of ours which no proof can show.</p>
{parts}
<h3>Where to begin</h3>
<p>These say the most. Each rests on what stands below it.</p>
{first}
<h3 id=clauses>The clauses of <code>answer</code></h3>
{clause}
<details><summary>The toolchain's words below <code>answer</code> ({words})</summary><p>{kit}. <code>rt lemma NAME</code> prints each.</p></details>
"""
