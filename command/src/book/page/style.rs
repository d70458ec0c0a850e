//! How the page of a book looks: by day and in the dark, on a telephone and on paper. Every pair of colours that meet is named once, and
//! tests/python/record.py computes their contrast.

pub const STYLE: &str = "\
:root { color-scheme: light dark; --paper: #ffffff; --ink: #1d2125; --soft: #54595f; --line: #c9ced4; --band: #eef0f2; --wanted: #d5dae0; --link: #0b5394; \
--head: #1f4e8c; --read: #a83600; --good: #14602c; --goodpaper: #e5f4e9; --bad: #96160f; --badpaper: #fdeae8; --code: #f4f5f6; }
@media (prefers-color-scheme: dark) { :root { --paper: #15181b; --ink: #e4e7ea; --soft: #a8afb6; --line: #454b52; --band: #20252a; --wanted: #343b43; --link: #8ab8ec; \
--head: #8ab8ec; --read: #f0a06c; --good: #8fd6a3; --goodpaper: #15291c; --bad: #f5a39c; --badpaper: #361917; --code: #1e2226; } }
* { box-sizing: border-box; }
html { background: var(--paper); color: var(--ink); font: 1rem/1.5 system-ui, -apple-system, 'Segoe UI', Roboto, 'Liberation Sans', sans-serif; -webkit-text-size-adjust: 100%; }
body { margin: 0 auto; max-width: 60rem; padding: 1rem; overflow-wrap: anywhere; }
h1 { font-size: 1.7rem; line-height: 1.2; margin: 0.5rem 0 1rem; } h2 { font-size: 1.3rem; margin: 2rem 0 0.5rem; } h3 { font-size: 1.1rem; margin: 0 0 0.5rem; }
p, ul { margin: 0.5rem 0; max-width: 46rem; } li { margin: 0.25rem 0; }
b { font-weight: 600; } .index b { font-weight: normal; } a { color: var(--link); } a:focus-visible, summary:focus-visible { outline: 3px solid var(--link); outline-offset: 2px; }
.skip { position: absolute; left: -100rem; } .skip:focus { left: 1rem; background: var(--paper); padding: 0.5rem; }
.state { border-left: 0.4rem solid; padding: 0.75rem 1rem; font-size: 1.1rem; max-width: none; }
.good { color: var(--good); background: var(--goodpaper); border-color: var(--good); } .bad { color: var(--bad); background: var(--badpaper); border-color: var(--bad); }
dl { display: grid; grid-template-columns: max-content 1fr; gap: 0.15rem 1rem; margin: 1rem 0; } dt { color: var(--soft); } dd { margin: 0; }
code, pre { font: 0.875rem/1.45 ui-monospace, 'DejaVu Sans Mono', 'Liberation Mono', Menlo, monospace; }
pre { background: var(--code); padding: 0.75rem; margin: 0.5rem 0; overflow-x: auto; white-space: pre-wrap; }
.wide { overflow-x: auto; } table { border-collapse: collapse; margin: 0.75rem 0; font-variant-numeric: tabular-nums; overflow-wrap: normal; }
caption { text-align: left; color: var(--soft); padding-bottom: 0.25rem; }
th, td { padding: 0.25rem 0.75rem 0.25rem 0; border-bottom: 1px solid var(--line); text-align: right; vertical-align: top; font-weight: normal; }
thead th { color: var(--soft); vertical-align: bottom; } .index th, .index td { text-align: left; } .index td:last-child { min-width: 14rem; }
article { border-top: 1px solid var(--line); padding: 1.25rem 0; content-visibility: auto; contain-intrinsic-size: auto 44rem; }
figure { margin: 0.75rem 0; overflow-x: auto; } svg { display: block; width: 100%; min-width: 32rem; max-width: 44rem; } figcaption, .small { color: var(--soft); font-size: 0.875rem; }
svg text { font: 13px system-ui, 'Liberation Sans', sans-serif; fill: var(--ink); } svg .st { fill: var(--soft); } svg .sn { font-weight: 600; paint-order: stroke; stroke: var(--paper); stroke-width: 3px; }
.sf { fill: var(--band); } .sw { fill: var(--wanted); stroke: var(--paper); } .sa { fill: none; stroke: var(--soft); } .sh { fill: none; stroke: var(--head); stroke-width: 1.75; stroke-linejoin: round; }
.sr { fill: none; stroke: var(--read); stroke-width: 4; stroke-linecap: round; } .sd { fill: none; stroke: var(--read); stroke-width: 10; stroke-linecap: round; }
@media (max-width: 40rem) { svg { min-width: 0; } svg text { font-size: 19px; } svg .sm { display: none; } }
.checked { color: var(--good); } summary { cursor: pointer; color: var(--link); }
@media print { :root { color-scheme: light; --paper: #ffffff; --ink: #000000; --soft: #444444; --line: #aaaaaa; --band: #eeeeee; --wanted: #d5d5d5; --link: #000000; --head: #1f4e8c; --read: #a83600; \
--good: #14602c; --goodpaper: #ffffff; --bad: #96160f; --badpaper: #ffffff; --code: #ffffff; }
  body { max-width: none; padding: 0; font-size: 10pt; } article { content-visibility: visible; } h2, h3, caption { break-after: avoid; } figure, tr, .state { break-inside: avoid; }
  thead { display: table-header-group; } .skip { display: none; } svg { min-width: 0; max-width: 15cm; } figure, .wide { overflow: visible; } details::details-content { content-visibility: visible; } summary { list-style: none; } }
";
