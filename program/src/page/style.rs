//! How the page looks: in light and in dark, on a screen of any width and on paper.

use crate::pictures::svg::escaped;

/// The page's head, with its own title. Beside every drawing there is room for labels of so many letters.
pub fn head(title: &str, letters: usize) -> String {
    let scale = scale(letters);
    format!(
        "<!DOCTYPE html>\n<html lang=\"en\">\n<head>\n<meta charset=\"utf-8\">\n<meta \
         http-equiv=\"Content-Security-Policy\" content=\"default-src 'none'; style-src \
         'unsafe-inline'\">\n<meta name=\"viewport\" content=\"width=device-width, \
         initial-scale=1\">\n<meta name=\"color-scheme\" content=\"light dark\">\n<title>{}</title>\n\
         <style>\n{COLOURS}{scale}{LAYOUT}{TABLES}{DRAWINGS}{NARROW}{PRINT}</style>\n</head>\n",
        escaped(title)
    )
}

/// The width of the labels beside the drawings, of which no letter may touch a mark: 0.52rem a letter is more than those of
/// numbers and of ppm have in the widest of the fonts that are named.
fn scale(letters: usize) -> String {
    let hundredths = (52 * letters).max(460);
    format!(":root{{--scale:{}.{:02}rem}}\n", hundredths / 100, hundredths % 100)
}

/// Every colour of a text stands off its paper by 4.5 to 1 or more, every mark by 3 to 1.
const COLOURS: &str = "\
:root{--paper:#fff;--ink:#1b1f24;--soft:#57606a;--line:#d0d7de;--edge:#8c959f;--right:#1a7f37;--wrong:#b3261e;--open:#7a5c00;--band:#cfe8d5;--own:#1f5f99;--before:#9a4d00;--after:#6b3fa0;--mark:#eef4fb}
@media (prefers-color-scheme:dark){:root{--paper:#14181d;--ink:#e6e9ed;--soft:#a3adb8;--line:#39424d;--edge:#77828e;--right:#5cc374;--wrong:#ff8a80;--open:#e0b83c;--band:#234a31;--own:#7db8f0;--before:#f0a860;--after:#c3a3f0;--mark:#1e2a38}}
";

const LAYOUT: &str = "\
*{box-sizing:border-box}
body{margin:0;background:var(--paper);color:var(--ink);font:1rem/1.5 system-ui,\"Segoe UI\",\"DejaVu Sans\",sans-serif}
main{max-width:62rem;margin:0 auto;padding:1.2rem 1.5rem}
h1{font-size:1.75rem;line-height:1.2;margin:.1rem 0 .5rem}
h2{font-size:1.1rem;margin:0 0 .3rem}
p{margin:.3rem 0 .6rem;overflow-wrap:anywhere}
section{border-top:1px solid var(--line);padding:.9rem 0 .3rem}
.site{font-size:1.1rem;font-weight:600;margin:0}
.asked{color:var(--soft);margin:0}
.sum{font-size:1.1rem}
.soft,figcaption,caption,small{color:var(--soft);font-size:.86rem}
.right{color:var(--right)}.wrong{color:var(--wrong)}.open{color:var(--open)}
dl{margin:0}dt{color:var(--soft);font-size:.86rem}dd{margin:0 0 .5rem;overflow-wrap:anywhere}
code{font-family:ui-monospace,\"DejaVu Sans Mono\",monospace;font-size:.86rem}
";

const TABLES: &str = "\
table{border-collapse:collapse;width:100%;font-variant-numeric:tabular-nums;font-size:.92rem;margin:0 0 .9rem}
caption{text-align:left;padding:0 0 .3rem}
th,td{text-align:right;vertical-align:top;padding:.25rem .45rem;border-bottom:1px solid var(--line)}
th{font-weight:600}
th:first-child,.readings td:nth-child(2),.readings th:nth-child(2),.clocks td:nth-child(3),.stretches td:last-child,.stretches th:last-child{text-align:left}
td.best{background:var(--mark);font-weight:600}
.stretches td{white-space:normal}
";

const DRAWINGS: &str = "\
figure{margin:.5rem 0 .9rem}
figcaption{margin:0 0 .3rem}
.row{display:grid;grid-template-columns:10.5rem var(--scale) minmax(0,1fr);column-gap:.5rem;align-items:stretch;margin:0 0 .45rem}
.name b,.name small{display:block;line-height:1.25}
.name b{font-size:.92rem}
small.best{color:var(--ink);font-weight:600}
.scale{display:flex;flex-direction:column;justify-content:space-between;text-align:right;color:var(--soft);font-size:.78rem;line-height:1;white-space:nowrap}
.readings-scale{height:40px}.draw{min-width:0}
.axis{display:flex;justify-content:space-between;color:var(--soft);font-size:.78rem}
svg{display:block;width:100%}
svg path{vector-effect:non-scaling-stroke;fill:none}
svg .axis{stroke:var(--edge);stroke-width:1}
svg .gap{stroke:var(--edge);stroke-width:1;stroke-dasharray:3 3}
.shift{height:40px}.wrongs{height:18px;margin-top:3px}.stuffed{height:34px}.rates{height:72px}
svg .line{stroke-width:1.8;stroke-linejoin:round}
svg .own{stroke:var(--own)}svg .before{stroke:var(--before)}svg .after{stroke:var(--after)}
svg .span{fill-opacity:.45;stroke-width:.5}
svg .span.own{fill:var(--own)}svg .span.before{fill:var(--before)}svg .span.after{fill:var(--after)}
svg .bars{fill:var(--wrong)}svg .dense{fill:var(--own)}svg .band{fill:var(--band)}
svg .line.out{stroke:var(--wrong);stroke-width:3}
.key{display:inline-block;width:1.4em;height:.8em;vertical-align:-.05em;border:1px solid var(--edge)}
.key.band{background:var(--band)}.key.out{height:0;border:0;border-top:3px solid var(--wrong);vertical-align:.25em}
";

const NARROW: &str = "\
@media (max-width:46rem){main{padding:.8rem .7rem}h1{font-size:1.4rem}.sum{font-size:1rem}
.row{grid-template-columns:var(--scale) minmax(0,1fr)}.name{grid-column:1/-1}.name b,.name small{display:inline;margin-right:.5rem}.ends>div:first-child,.middle{display:none}
table{font-size:.8rem}th,td{padding:.2rem .22rem}.readings small{display:block}.readings small+br{display:none}}
";

const PRINT: &str = "\
@media print{@page{margin:14mm}html{font-size:10.5px}:root{--paper:#fff;--ink:#000;--soft:#444;--line:#999;--edge:#666;--right:#05541c;--wrong:#9b0000;--open:#5c4a00;--band:#d5e8da;--own:#174a78;--before:#7d3e00;--after:#54318a;--mark:#e8eef5}
main{max-width:none;padding:0}h1,h2,caption,figcaption{break-after:avoid}figure,tr,dd,.row{break-inside:avoid}section.numbers{break-inside:avoid}
*{-webkit-print-color-adjust:exact;print-color-adjust:exact}}
";
