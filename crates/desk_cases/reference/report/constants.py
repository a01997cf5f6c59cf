"""What stands on every report alike: its style sheet; and as HTML the shapes of its maps, the links to its parts, the key of the maps,
and how it is read."""

STYLE = r'''
:root{color-scheme:light dark;--bg:#fff;--fg:#1b1f23;--mute:#57606a;--line:#d3d9df;--soft:#f4f6f8;--hit:#fff6e5;--link:#0a58a6;--ro:#1f62a8;--rw:#c2560a;--rwt:#964206;--rk:#8b0a50;--in:#fff}
@media screen and (prefers-color-scheme:dark){:root{--bg:#13161a;--fg:#e4e8ec;--mute:#a4adb6;--line:#3a4149;--soft:#1c2025;--hit:#2b2416;--link:#83bbf7;--ro:#74b4f2;--rw:#ee8f43;--rwt:#f3a565;--rk:#ff85b6;--in:#13161a}}
@media print{:root{color-scheme:light}}
@media screen{section.fs{content-visibility:auto;contain-intrinsic-size:auto 80rem}table.text thead th{white-space:nowrap}dl.words dd code{white-space:pre}}
*{box-sizing:border-box}
html{scroll-padding-top:3rem;-webkit-text-size-adjust:100%;text-size-adjust:100%}
body{margin:0 auto;padding:0 1.25rem 4rem;max-width:80rem;background:var(--bg);color:var(--fg);font:1rem/1.5 system-ui,-apple-system,"Segoe UI",Roboto,"Liberation Sans",Arial,sans-serif;font-variant-numeric:tabular-nums}
code,pre,ul.r{font-family:ui-monospace,SFMono-Regular,Menlo,Consolas,"DejaVu Sans Mono","Liberation Mono",monospace;font-size:.875em}
u{text-decoration:none}
u::after{content:"\2060";content:"\2060"/""}
code{overflow-wrap:anywhere;white-space:break-spaces;tab-size:8;unicode-bidi:isolate}
pre{background:var(--soft);border:1px solid var(--line);border-radius:6px;padding:.75rem 1rem;overflow:auto}
pre code{font-size:1em;white-space:pre}
a{color:var(--link);text-underline-offset:.15em}
:focus-visible{outline:3px solid var(--link);outline-offset:2px}
:target{outline:2px solid var(--link);outline-offset:-1px}
section:target{outline:0}
section:target>h2,section:target>h3{text-decoration:underline;text-decoration-color:var(--link);text-underline-offset:.25em}
header{padding-top:2rem}
.kind{margin:0;color:var(--mute);text-transform:uppercase;letter-spacing:.08em;font-size:.8125rem}
h1{font-size:1.875rem;line-height:1.2;margin:.1rem 0 .5rem}
h2{font-size:1.5rem;line-height:1.25;margin:3rem 0 1rem;padding-bottom:.35rem;border-bottom:2px solid var(--line)}
h3{font-size:1.1875rem;line-height:1.3;margin:1.75rem 0 .5rem}
h4{font-size:1rem;margin:1.5rem 0 .5rem}
h5{font-size:.9375rem;margin:0 0 .5rem}
h3 code,h4 code,h5 code{font-size:1em}
p{margin:.4rem 0 .8rem;max-width:46rem}
nav{position:sticky;top:0;z-index:2;display:flex;gap:.15rem 1.1rem;overflow-x:auto;margin:1rem -1.25rem 0;padding:.6rem 1.25rem;background:var(--bg);border-bottom:1px solid var(--line);font-size:.9375rem;white-space:nowrap}
dl.big{display:grid;grid-template-columns:repeat(auto-fit,minmax(9rem,1fr));margin:0;border:1px solid var(--line);border-radius:8px;overflow:hidden}
dl.big div{box-shadow:0 0 0 .5px var(--line);padding:.7rem .9rem;display:flex;flex-direction:column}
dl.big dt{font-size:.875rem;color:var(--mute)}
dl.big dd{margin:0;font-size:1.75rem;line-height:1.2;font-weight:600}
dl.big small{display:block;font-size:.8125rem;font-weight:400;color:var(--mute)}
dl.facts{display:grid;grid-template-columns:repeat(auto-fit,minmax(13rem,1fr));gap:.4rem 1.5rem;margin:.5rem 0 1rem}
dl.facts dt{font-size:.8125rem;color:var(--mute)}
dl.facts dd{margin:0}
.wide{overflow-x:auto;margin:.5rem 0 1.25rem;max-width:100%}
table{border-collapse:collapse;font-size:.9375rem;width:100%}
caption{text-align:left;color:var(--mute);font-size:.875rem;padding:.25rem 0}
.off{position:absolute;width:1px;height:1px;overflow:hidden;clip-path:inset(50%)}
th,td{text-align:left;vertical-align:baseline;padding:.4rem .75rem .4rem 0;border-bottom:1px solid var(--line)}
th:last-child,td:last-child{padding-right:0}
thead th{font-size:.8125rem;font-weight:600;color:var(--mute);vertical-align:bottom}
tbody th{font-weight:400}
.num{text-align:right;white-space:nowrap}
.zero{color:var(--mute)}
small{color:var(--mute)}
table.o td{vertical-align:middle}
table.o th{vertical-align:middle}
table.o thead th{vertical-align:bottom;white-space:nowrap}
table.o td b{display:block}
table.s{width:auto}
table.s th,table.s td{padding-right:1.5rem;white-space:nowrap}
table.v{table-layout:fixed;min-width:44rem}
table.v th:first-child{width:7.5rem}
table.v th:nth-child(3){width:9.5rem}
table.v th:nth-child(4){width:40%}
table.p{table-layout:fixed;min-width:44rem}
table.p th:first-child{width:9.5rem}
table.p th:nth-child(2){width:7rem}
table.text{font-size:.875rem;width:100%}
table.text code{font-size:.9375em}
table.text th,table.text td{padding-top:.12rem;padding-bottom:.12rem;border-bottom-color:transparent}
table.text thead th{border-bottom-color:var(--line)}
table.text tbody th{width:2.5rem;text-align:right;color:var(--mute);user-select:none}
table.text td{vertical-align:baseline}
table.text td:nth-child(2){white-space:nowrap}
table.text td:last-child{width:100%}
table.text .num{padding-right:1.25rem}
table.text tr.hit{background:var(--hit)}
ul.r{list-style:none;margin:0;padding:0;display:flex;flex-wrap:wrap;gap:0 1rem}
ul.d{list-style:none;margin:0 0 .5rem;padding:0;font-size:.875rem;color:var(--mute)}
ul.mine,ul.legend{list-style:none;padding:0;margin:.5rem 0 1rem}
ul.legend{display:flex;flex-wrap:wrap;gap:.35rem 1.4rem;font-size:.875rem}
.b{display:inline-block;padding:0 .45em;border:1.5px solid currentColor;border-radius:4px;font-size:.8125rem;line-height:1.45;font-weight:600;white-space:nowrap}
dl.facts .b,table.p .b{display:inline}
.b.n{color:var(--mute);font-weight:400}
.b.o{color:var(--ro)}
.b.w{color:var(--rwt)}
.b.r{color:var(--rk);border-width:2.5px}
.l{white-space:nowrap}
b.l{font-size:.875rem}
.l.look-first::before{content:"\25b2\a0"}
.l.check::before{content:"\25cb\a0"}
.l.look-first{color:var(--rk)}
.x{font-style:normal;color:var(--rk);border-bottom:1px dotted}
.sha{display:block;font-size:.75rem}
.names{font-size:.875rem;max-width:none}
.state{font-size:.875rem;color:var(--mute);max-width:none}
.state code{color:var(--fg)}
table.a th code{white-space:pre}
table.f th+td,table.o tbody th{min-width:9rem}
table.i .b{display:flow-root;width:max-content}
dl.words{display:grid;grid-template-columns:max-content 1fr;gap:.4rem 1.25rem;max-width:52rem}
dl.words dd{margin:0}
dl.words dt code{display:inline-block;max-width:100%}
ul.d .r{font-size:.9375em}
.key{font-size:.875rem;color:var(--mute)}
@media (min-width:40.01rem),print{table:not(.n) th code,a code{display:inline-block;width:max-content;max-width:41ch;text-decoration:inherit;baseline-source:first}table.h th code,table:not([class]) th code{max-width:49ch}table.i td:nth-child(n+4){min-width:13.5rem}#read th+td{min-width:14.5rem}table.n tbody th,table.n td:nth-child(2):not(.num),table.n td:nth-child(3):not(.num){min-width:9rem}table:not([class]) td:nth-child(3){min-width:7rem}.sha{min-width:16rem}}
.cut{font-size:.875rem;border-left:3px solid var(--rw);padding-left:.6rem}
section.fs{border-top:1px solid var(--line);padding-top:.25rem;margin-top:2.5rem}
section.fs>h3{font-size:1.375rem;margin-top:1rem}
section.place{border-left:3px solid var(--line);padding-left:1rem;margin:1rem 0 1.5rem}
section.wait{border:2px dashed var(--rw);border-radius:8px;padding:.25rem 1rem;margin:1rem 0}
.up{font-size:.875rem}
details{margin:.25rem 0 1rem}
td details{margin:0}
summary{cursor:pointer;color:var(--link);font-size:.9375rem}
td summary{font-size:.875rem}
.maps{display:flex;flex-wrap:wrap;gap:.75rem 1.25rem;margin:.25rem 0 .5rem}
figure{margin:0;width:10rem}
.place figure{width:7.5rem}
figcaption{font-size:.8125rem;line-height:1.35;color:var(--mute)}
figcaption b{display:block;color:var(--fg);font-weight:600}
svg{display:block}
.defs{position:absolute}
svg.big{width:100%;height:auto}
svg.tiny{width:4.25rem;height:4.25rem}
svg.key{display:inline-block;width:1.25rem;height:1.25rem;vertical-align:-.3rem}
path.g{fill:var(--soft);stroke:var(--mute);stroke-width:.6}
path.h{fill:none;stroke:var(--mute);stroke-width:.4;stroke-opacity:.45}
.y text{font-size:6px;fill:var(--mute);text-anchor:end}
path.po{fill:var(--ro)}
path.pr{fill:var(--rk)}
path.px{fill:var(--in)}
path.o{fill:url(#po)}
path.w{fill:var(--rw)}
path.r{fill:url(#pr)}
path.k{stroke:var(--in);stroke-width:.5;paint-order:stroke}
.tiny path.k{stroke-width:1}
.tiny path.k.w{stroke:var(--rw)}
.tiny path.k.r{stroke-width:1.6}
path.k.o{fill:var(--in);stroke:var(--ro);stroke-width:.9}
path.k.r{fill:var(--rk)}
@media (max-width:40rem){body{padding:0 .9rem 3rem}nav{flex-wrap:wrap;position:static;margin:1rem -.9rem 0;padding:.6rem .9rem}h1{font-size:1.5rem}figure,.place figure{width:8rem}section.place{padding-left:.7rem}section.wait{padding:.25rem .7rem}table,tbody,caption{display:block}table.v,table.p{min-width:0}thead{position:absolute;width:1px;height:1px;overflow:hidden;clip-path:inset(50%)}tr{display:flex;flex-wrap:wrap;gap:.1rem .8rem;padding:.5rem 0;border-bottom:1px solid var(--line)}tr>*,table.s tr>*{padding:0;border:0}tbody th{flex:0 0 100%}td:empty{display:none}td::before{content:var(--c);color:var(--mute);font-size:.8125rem;white-space:normal}table.n td:not(.num),table.a td:not(.num),table.i td:nth-child(n+4){flex:0 0 100%}.num{--c:"addresses: "}table.p td:nth-child(3){--c:"all of it: "}table.p td:nth-child(4){--c:"addresses in parts of it: "}table.a td:nth-child(3){--c:"lines: "}table.a td:nth-child(4){--c:"without -ro: "}table.a td:nth-child(5){--c:"file systems: "}table.i td:nth-child(2){--c:"clients: "}table.i td:nth-child(4){--c:"now: "}table.i td:nth-child(5){--c:"then: "}table.s td:nth-child(2){--c:"has: "}table.s td:nth-child(3){--c:"read-only: "}table.s td:nth-child(4){--c:"read-write: "}table.s td:nth-child(5){--c:"root kept: "}table.s td:nth-child(6){--c:"may mount: "}table.h td:nth-child(2){--c:"revision: "}table.h td:nth-child(3){--c:"author: "}table.h td:nth-child(4){--c:"approver: "}table.h td:nth-child(5){--c:"profile: "}table.h td:nth-child(6){--c:"bytes: "}table.h td:nth-child(7){--c:"SHA-256: "}table.h td:nth-child(8){--c:"remark: "}table.n td:last-child{--c:"written by: "}table.n td:nth-last-child(2){--c:"stands for: "}table.n .num:nth-last-child(4){--c:"host names: "}table.n td:nth-last-child(5){--c:"in it: "}table.n td:nth-last-child(6){--c:"line: "}table:not([class]) td:nth-child(3){--c:"word: "}table:not([class]) td:nth-child(4){--c:"name: "}table.o td:nth-child(3){--c:"all of IPv4"}table.o td:nth-child(4){--c:"10.0.0.0/8"}table.o td:nth-child(5){--c:"172.16.0.0/12"}table.o td:nth-child(6){--c:"192.168.0.0/16"}table.o td:nth-child(8){--c:"kept by: "}table.o td:nth-child(9){--c:"in force: "}table.o td:nth-child(10){--c:"stands out: "}table.o tr{display:grid;gap:.1rem .25rem;grid-template-columns:repeat(4,minmax(0,1fr))}table.o td b{display:inline-block;margin-left:.4rem}table.o svg{width:100%;max-width:min(4.25rem,17vw);height:auto}table.o th{grid-column:1/3}table.o td:nth-child(2){grid-column:3/-1}table.o td:nth-child(-n+6)::before{font-size:min(.6875rem,2.7vw)}table.o td:nth-child(n+7){grid-column:1/-1;text-align:left}table.v tr,table.p tr{display:grid;grid-template-columns:auto 1fr}table.f tbody th{flex:0 0 auto}table.v .num,table.p .num{grid-area:1/2}table.f td:nth-child(2){min-width:0}table.f .num{margin-left:auto}table.v td:nth-child(2),table.v td:nth-child(4),table.p td:nth-child(n+3){grid-column:1/-1}table.f td:nth-child(3){flex:0 0 100%;order:1}ul.r{gap:0 .8rem}table.n ul.r{display:inline-flex}table.text tr{display:grid;align-items:baseline;gap:0 .6rem;grid-template-columns:2rem 1fr auto;padding:.12rem 0}table.text tbody th{width:auto}table.text td:last-child{grid-column:2/-1;width:auto}table.text .num{padding:0 .4rem 0 0}table.text td:nth-child(2){white-space:normal}pre code{white-space:pre-wrap}dl.words{display:block}dl.words dd:last-child code{white-space:break-spaces}dl.words dd{margin:.1rem 0 .7rem}}
@media print{html{font-size:8pt}body{max-width:none;padding:0}dl.big{grid-template-columns:repeat(7,1fr)}table.o thead th{white-space:normal;font-size:.6875rem}table.h th,table.h td,table.o th,table.o td{padding-right:.5rem}.sha{font-size:.6875rem}nav,.up{display:none}a{color:inherit;text-decoration:none}h2,h3,h4,h5,summary,caption,thead{break-after:avoid}tbody tr:first-child{break-before:avoid}path.o{fill:var(--ro);fill-opacity:.5}path.k.o{fill:var(--in);fill-opacity:1}path.r{fill:var(--rk)}tr.hit{print-color-adjust:exact;-webkit-print-color-adjust:exact}section.wait{box-decoration-break:clone;-webkit-box-decoration-break:clone}tr,figure,.maps,dl,pre,.place{break-inside:avoid}dl.words dd:not(:last-child) code{white-space:nowrap}thead{display:table-header-group}.wide{overflow:visible}details::details-content{content-visibility:visible;display:block;height:auto}summary{color:inherit;list-style:none}svg.tiny{width:.9cm;height:.9cm}figure{width:2.7cm}.place figure{width:2.4cm}}
@media (forced-colors:active){.b,svg{forced-color-adjust:none}}
'''

DEFINITIONS = '''<svg class="defs" width="0" height="0" aria-hidden="true" focusable="false">
<defs>
<pattern id="po" width="2" height="2" patternUnits="userSpaceOnUse" patternTransform="rotate(45)"><path class="po" d="M0 0h1.1v2h-1.1z"/></pattern>
<pattern id="pr" width="4" height="4" patternUnits="userSpaceOnUse"><path class="pr" d="M0 0h4v4h-4z"/><path class="px" d="M1.5 .5h1v1h1v1h-1v1h-1v-1h-1v-1h1z"/></pattern>
<path id="g" class="g" d="M0 0h64v64h-64z"/>
<path id="h" class="h" d="M4 0v64M8 0v64M12 0v64M16 0v64M20 0v64M24 0v64M28 0v64M32 0v64M36 0v64M40 0v64M44 0v64M48 0v64M52 0v64M56 0v64M60 0v64M0 4h64M0 8h64M0 12h64M0 16h64M0 20h64M0 24h64M0 28h64M0 32h64M0 36h64M0 40h64M0 44h64M0 48h64M0 52h64M0 56h64M0 60h64"/>
<g id="y" class="y"><text x="-2" y="4">0</text><text x="-2" y="20">64</text><text x="-2" y="36">128</text><text x="-2" y="52">192</text></g>
<g id="y12" class="y"><text x="-2" y="4">16</text><text x="-2" y="20">20</text><text x="-2" y="36">24</text><text x="-2" y="52">28</text></g>
</defs></svg>
'''

LINKS = '''</header>
<nav aria-label="Parts of this report"><a href="#summary">Summary</a> <a href="#systems">File systems</a> <a href="#networks">Networks</a> <a href="#each">Each file system</a> <a href="#warnings">Warnings</a> <a href="#names">Names</a> <a href="#files">Files and revisions</a> <a href="#read">How to read this</a></nav>
<main>
'''

LEGEND = '''<ul class="legend">
<li><svg class="key" viewBox="-.5 -.5 5 5" aria-hidden="true" focusable="false"><path class="g" d="M0 0h4v4h-4z"/></svg> nobody</li>
<li><svg class="key" viewBox="-.5 -.5 5 5" aria-hidden="true" focusable="false"><path class="g" d="M0 0h4v4h-4z"/><path class="o" d="M0 0h4v4h-4z"/></svg> all read-only</li>
<li><svg class="key" viewBox="-.5 -.5 5 5" aria-hidden="true" focusable="false"><path class="g" d="M0 0h4v4h-4z"/><path class="w" d="M0 0h4v4h-4z"/></svg> all read-write</li>
<li><svg class="key" viewBox="-.5 -.5 5 5" aria-hidden="true" focusable="false"><path class="g" d="M0 0h4v4h-4z"/><path class="r" d="M0 0h4v4h-4z"/></svg> all, root kept</li>
<li><svg class="key" viewBox="-.5 -.5 5 5" aria-hidden="true" focusable="false"><path class="g" d="M0 0h4v4h-4z"/><path class="o k" d="M1 1h2v2h-2z"/></svg> some read-only</li>
<li><svg class="key" viewBox="-.5 -.5 5 5" aria-hidden="true" focusable="false"><path class="g" d="M0 0h4v4h-4z"/><path class="w k" d="M1 1h2v2h-2z"/></svg> some read-write</li>
<li><svg class="key" viewBox="-.5 -.5 5 5" aria-hidden="true" focusable="false"><path class="g" d="M0 0h4v4h-4z"/><path class="r k" d="M2 0l2 2-2 2-2-2z"/></svg> some, root kept</li>
<li><svg class="key" viewBox="-.5 -.5 5 5" aria-hidden="true" focusable="false"><path class="g" d="M0 0h4v4h-4z"/><path class="o" d="M0 0h4v4h-4z"/><path class="r k" d="M2 0l2 2-2 2-2-2z"/></svg> all read-only, and some with root kept</li>
</ul>
<p class="key">A cell shows what all its addresses may, and in its middle the most that some may. <a href="#read">More on the maps</a></p>
'''

HOW_TO_READ = '''<section id="read">
<h2>How to read this</h2>
<h3>Words</h3>
<dl class="words">
<dt><span class="b n">denied</span></dt><dd>The client may not mount the directory: no line matches it, or none of the lines that match it best lists the directory.</dd>
<dt><span class="b o">read-only</span></dt><dd>It may mount it read-only, and no user of the client acts as uid 0.</dd>
<dt><span class="b w">read-write</span></dt><dd>It may mount it read-write, and no user of the client acts as uid 0.</dd>
<dt><span class="b r">root kept</span></dt><dd>It may mount it, read-only or read-write, and its root, or every user, acts as uid 0 (<code>-maproot=0</code>, <code>-mapall=0</code>).</dd>
<dt>other directories</dt><dd>All directories of the file system that no line writes, but for its mount point, which is listed by its name. They have the same verdicts, so one list holds for all of them. Where directories are counted, these are not.</dd>
<dt>Guarded</dt><dd>A change of the exports file takes two of its custodians. <code>site</code> alone keeps the tables: it may change whom names mean (<code>hosts</code>, <code>netgroup</code>), and take the guard away (<code>filesystems</code>).</dd>
<dt>to addresses</dt><dd>To how many addresses the line grants some directory: those for which it is the line that the verdict names.</dd>
<dt>State</dt><dd>The SHA-256 of a line <code>NAME rev N by AUTHOR SHA-256</code> for each file in the order of the table of files, with <code> approved by APPROVER</code> behind the author if there is one, and <code> profile P</code> before the digest of exports; and of a line <code>NAME proposed rev N by AUTHOR SHA-256</code> behind it if the file has a proposal. Equal states have equal texts in force, numbers of revisions, authors, approvers, profiles and proposals: all that this page shows.</dd>
</dl>
<h3>Maps</h3>
<p>A map is one network, cut into 256 cells of equal size: 16 rows of 16, read like text. In a map of all IPv4 a cell is a /8 and a row is a /4; in one of a /8, /16 or /24 a cell is a /16, a /24 or one address. The cell's number, from 0 to 255, is the next number of the address; the numbers at the left are those of the first cells of the rows. In the map of 172.16.0.0/12 a row is a /16, from 172.16 to 172.31, and a cell a /20.</p>
<p>The whole cell shows what <b>every</b> address in it may; a mark in its middle shows the most that <b>at least one</b> may, if that is more: a hollow square for read-only, a full one for read-write, a diamond for root kept. So no host vanishes, and a cell is full only if all of it is granted. The most is, in this order: root kept, read-write, read-only.</p>
<p>Wherever what a client may (nothing, read-only, read-write, root kept) changes between two neighbouring addresses, one of the maps has that border as a line of its grid, unless the page says that maps are not drawn.</p>
<h3>What stands out</h3>
<p>A line stands out by these rules and no others. Only <i>look first</i> and <i>check</i> tell them apart; an intended line may stand out, and a line that does not is not thereby right.</p>
<p>In the summary, proposals by which clients may do more stand above the lines. Lines for the same written names share a row there if they stand out for the same reasons, on the same terms, and grant something to as many addresses; a reason that names another line is the same only within a file system. The row names the first four of its lines, and shows the first as written. A line for a network or for everybody has a row of its own.</p>
<table class="f">
<caption class="off">Rules by which a line stands out</caption>
<thead><tr><th scope="col">Level</th><th scope="col">Words</th><th scope="col">The line</th></tr></thead>
<tbody>
<tr><th scope="row"><b class="l look-first">look first</b></th><td>for everybody, read-write, sec=..</td><td>names no client or a network /0, is not <code>-ro</code>, and grants something</td></tr>
<tr><th scope="row"><b class="l look-first">look first</b></th><td>root stays root, every user acts as root</td><td>is for a network or for everybody, keeps uid 0, and grants something</td></tr>
<tr><th scope="row"><b class="l look-first">look first</b></th><td>mountd(8) grants more</td><td>is the first to decide for some client to whom mountd(8) also grants a directory that is denied here: by another line, for a network of that client, which lists it (named are the least such client, that line, and the first such directory)</td></tr>
<tr><th scope="row"><b class="l look-first">look first</b></th><td>mountd(8) may leave this line out</td><td>has a client of an earlier line of the file system: an address, its network, or everybody. mountd(8) takes one line for a client and a file system, and may leave this one out with all its clients (named are the first such line, and the least such client: of a network its first address, of everybody 0.0.0.0)</td></tr>
<tr><th scope="row"><b class="l check">check</b></th><td>for everybody, read-only, sec=..</td><td>names no client or a network /0, is <code>-ro</code>, and grants something</td></tr>
<tr><th scope="row"><b class="l check">check</b></th><td>root stays root, every user acts as root</td><td>is for hosts or netgroups, keeps uid 0, and grants something</td></tr>
<tr><th scope="row"><b class="l check">check</b></th><td>wide</td><td>grants something to over 65,536 addresses, and is not for everybody</td></tr>
<tr><th scope="row"><b class="l check">check</b></th><td>matches nobody</td><td>has only names that stand for no address, or a network of IPv6</td></tr>
<tr><th scope="row"><b class="l check">check</b></th><td>never decides</td><td>matches some address, but other lines decide for all of them: made a comment, it would leave every verdict as it is</td></tr>
</tbody></table>
<h3>What this page does not tell</h3>
<ul>
<li>A client is an IPv4 address. Addresses can be forged, and with <code>sys</code> a client says itself who its users are.</li>
<li>The page is about the texts in the database. Whether the server has the same ones it does not know.</li>
<li>A denial does not bind every client to whom another directory of the same file system is granted. NFSv4 reaches all of that file system, and so does a client that guesses file handles; and mountd(8) grants a directory by any line for the client's hosts or networks that lists it. What stands out names each line where that grants more, and the lists of who may mount name one client for each line that denies; verdicts, maps and counts leave it out. If in doubt, go by the most that a client may mount of the file system.</li>
<li>Hosts and networks of IPv6 match nobody here, and <code>V4:</code> lines are neither read nor counted.</li>
<li>When a revision was put: the database keeps no times. Revision 1 by <code>site</code> is what <code>init</code> read, whoever wrote it.</li>
<li>What is too long is cut, and how much is left out is counted there. <code>exportdesk who</code> lists all clients of a directory. Shares in percent are rounded down.</li>
<li>Under Kerberos the principal decides as whom a user acts; the words on root are for <code>sys</code>.</li>
<li>Keys, and their digests, are not in it. Keep it as you keep the exports themselves.</li>
</ul>
</section>
'''
