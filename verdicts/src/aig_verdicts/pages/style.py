"""The style of a page: for narrow and wide screens, light and dark, and for paper. No colour says what no word does."""

STYLE = """\
:root{color-scheme:light dark;--paper:#fff;--ink:#1b1f24;--pale:#57606a;--line:#d8dee4;--soft:#f6f8fa;--bad:#b42318;
--good:#116329;--warn:#7a4b00;--warnbg:#fff8e6;--link:#0b57d0}
@media screen and (prefers-color-scheme:dark){
:root{--paper:#14171b;--ink:#e6e8eb;--pale:#9aa4ae;--line:#30363d;--soft:#1c2127;
--bad:#ff9a90;--good:#7ee2a0;--warn:#f0c674;--warnbg:#2b2410;--link:#8ab4f8}}
*{box-sizing:border-box}
body{margin:0 auto;max-width:1180px;padding:20px 24px 60px;background:var(--paper);color:var(--ink);
font:16px/1.5 system-ui,"Segoe UI","DejaVu Sans",sans-serif}
h1{font-size:26px;margin:0 0 2px;overflow-wrap:anywhere}
h2{font-size:20px;margin:36px 0 4px;border-bottom:2px solid var(--line);padding-bottom:4px}
h3{font-size:16px;margin:0}
p{margin:6px 0;max-width:76ch;overflow-wrap:anywhere}
.sub{color:var(--pale)}a{color:var(--link)}
code,pre,.name{font-family:ui-monospace,"DejaVu Sans Mono",Menlo,Consolas,monospace}
code{font-size:.9em;overflow-wrap:anywhere}.name{font-size:14px;overflow-wrap:anywhere}
.sum{display:flex;flex-wrap:wrap;gap:8px;margin:14px 0;padding:0;list-style:none}
.sum li{border:1.5px solid var(--line);border-radius:8px;padding:6px 14px;background:var(--soft)}
.sum b{font-size:22px;display:block;line-height:1.2}
.sum .bad{border-color:var(--bad)}.sum .good{border-color:var(--good)}.sum .warn{border-color:var(--warn)}
.sum a{color:inherit;text-decoration:none;display:block}
table{border-collapse:collapse;width:100%;margin:12px 0;font-size:15px}
th{text-align:left;font-weight:600;color:var(--pale);font-size:13px;border-bottom:2px solid var(--line);
padding:4px 10px 4px 0}
td{padding:5px 10px 5px 0;border-bottom:1px solid var(--line);vertical-align:top}
td:last-child,th:last-child{padding-right:0}
td.num,th.num{text-align:right;white-space:nowrap;font-variant-numeric:tabular-nums}
td.by{white-space:nowrap}
.v{white-space:nowrap;font-weight:600}.v i{font-style:normal;display:inline-block;width:1.35em}
.bad{color:var(--bad)}.good{color:var(--good)}.warn{color:var(--warn)}
section{border:1px solid var(--line);border-radius:10px;padding:14px 16px;margin:14px 0}
section.bad{border-left:6px solid var(--bad);color:inherit}
section.warn{border-left:6px double var(--warn);color:inherit}
section.good{border-left:6px solid var(--good);color:inherit}
section:target{outline:3px solid var(--link)}
section>header{display:flex;flex-wrap:wrap;gap:4px 14px;align-items:baseline;margin-bottom:6px}
pre{background:var(--soft);border:1px solid var(--line);border-radius:6px;padding:8px 10px;margin:8px 0;overflow-x:auto;
font-size:13px;line-height:1.5}
pre.src span{display:block;width:max-content;min-width:100%}
pre.src .hit{background:var(--warnbg);font-weight:600;outline:1px solid var(--warn)}
pre.src s{text-decoration:none;color:var(--pale);user-select:none}
.wave{display:flex;margin:10px 0}.wave>svg{flex:none}
.scroll{overflow-x:auto;direction:rtl;min-width:0}.scroll svg{direction:ltr;display:block}
.paper{display:none}
pre.why{white-space:pre-wrap}
pre.why span{display:block;padding-left:1.6em;text-indent:-1.6em}
pre.why i{font-style:normal;display:inline-block;text-indent:0;max-width:100%;overflow-wrap:anywhere}
.two{display:grid;gap:4px 24px;grid-template-columns:minmax(0,1fr)}
details{margin:6px 0}summary{cursor:pointer;color:var(--link)}
@media(min-width:1000px){.two{grid-template-columns:minmax(0,max-content) minmax(300px,1fr)}}
@media(max-width:640px){body{padding:12px 12px 40px;font-size:15px}
table,tbody{display:block}thead{display:none}td{border:0;padding:0}td.num{text-align:left;color:var(--pale)}
tr{border-bottom:1px solid var(--line);padding:8px 0;display:flex;flex-wrap:wrap;gap:0 14px}
td.what{flex:1 0 100%;order:-1}td:empty{display:none}section{padding:10px}}
@media print{body{max-width:none;font-size:11pt;padding:0}a{color:inherit}section{border-color:#888}
h2,h2+p,section>header{break-after:avoid}.wave,pre,tr{break-inside:avoid}summary{list-style:none;color:inherit}
details.rest,.screen{display:none}.paper{display:block}.paper svg{display:block;max-width:100%;break-inside:avoid}
details::details-content{content-visibility:visible;display:block;block-size:auto}
.two{grid-template-columns:minmax(0,1fr)}.scroll{overflow:visible}.scroll svg{max-width:100%;height:auto}
pre,pre.src span{white-space:pre-wrap;width:auto}}
"""
