//! The colours and letters of the picture, for light and for dark: each rule is written once, with names for the colours.

use crate::sizes;

/// A colour's name, then what it is in light and in dark. Text on any ground it is used on has a contrast of 4.5 to 1 or more.
const COLOURS: [(&str, &str, &str); 13] = [
    ("$ground", "#ffffff", "#0e1318"),
    ("$panel", "#f2f5f8", "#182028"),
    ("$again", "#e2e8ee", "#25303b"),
    ("$ink", "#16202c", "#eef2f6"),
    ("$soft", "#526070", "#a7b4c2"),
    ("$hair", "#dbe2e9", "#27323d"),
    ("$still", "#dde3ea", "#2b3641"),
    ("$edge", "#aab5c1", "#566472"),
    ("$on", "#ffffff", "#0b1014"),
    ("$bad", "#b3261e", "#ff8a80"),
    ("$strip", "#16202c", "#ffd54a"),
    ("$flash", "#ffd54a", "#0b1014"),
    ("$across", "#ffffff", "#0b1014"),
];

/// The locations' colours, by number.
const LOCATIONS: [(&str, &str); sizes::LOCATIONS] = [
    ("#1c5fc2", "#7db9ff"),
    ("#a84a00", "#ffb45c"),
    ("#1a7538", "#72d68c"),
    ("#7a35d0", "#c9abff"),
    ("#0b6e69", "#5ce0d2"),
    ("#b01660", "#ff9ec4"),
    ("#666000", "#dad45e"),
    ("#4a5868", "#b9c5d2"),
    ("#241a8f", "#8694ff"),
    ("#9c0b9d", "#f65df5"),
    ("#6b2410", "#d68b3c"),
    ("#0c5413", "#35c04a"),
    ("#5c0f52", "#c686b6"),
    ("#0a4a63", "#45a8ce"),
    ("#544600", "#a3a838"),
    ("#2d2be0", "#bb7cff"),
];

/// So many of these every picture has, so that the picture of a small case is the same however many a case may have.
const LEAST: usize = 8;

const RULES: &str = "
.run .ground{fill:$ground}.run .panel{fill:$panel}.run .again{fill:$again}
.run text{fill:$ink}.run .soft,.run .sub{fill:$soft}.run .bad{fill:$bad}
.run .hair{stroke:$hair}.run .halo{stroke:$panel}.run .thin{stroke:$panel}
.run .badge{fill:$ink}.run .badgewords{fill:$ground}
.run .cross{stroke:$bad}.run .stop{fill:$ground;stroke:$bad}.run .stopwords{fill:$bad}
.run .cut{fill:$strip}.run .bolt{fill:$flash}.run .cutwords{fill:$across}
.run .line.fence,.run .ring.fence,.run .fence .box,.run .brief .box{stroke:$soft}.run .tip.fence,.run .tip.brief{fill:$soft}
.run .ring,.run .mark .box,.run .fence .box,.run .brief .box,.run .w1 .box{fill:$ground}
.run .w0 .box~text{fill:$on}
.run .still .stretch,.run .still .box{fill:$still;stroke:$edge}.run .still text{fill:$soft}.run .end.still text{fill:$ink}
.run .chip.gone .box{fill:$ground;stroke:$bad}.run .chip.gone .box~text{fill:$bad}
";

const LOCATION: &str = "
.run .line.c#,.run .ring.c#,.run .c# .box,.run .c# .stretch{stroke:$c}.run .tip.c#,.run .w0.c# .box,.run .name.c#{fill:$c}
.run .c# .stretch{fill:$c}.run .w1.c# text,.run .mark.c# text{fill:$c}
";

/// What light and dark have in common.
const SHAPES: &str = "
.run text{font:12px system-ui,-apple-system,'Segoe UI',Roboto,'Noto Sans',sans-serif}
.run .mono{font-family:ui-monospace,SFMono-Regular,Menlo,Consolas,'DejaVu Sans Mono','Liberation Mono',monospace}
.run .mid{text-anchor:middle}.run .tail{text-anchor:end}.run .strong,.run .step{font-weight:700;font-size:13px}
.run .soft,.run .deed,.run .small{font-size:11px}.run .sub{font-size:10px}.run .chip text{font-size:11.5px;font-weight:600}
.run .verdict{font-size:16px;font-weight:650}.run .badgewords{font-size:13px;font-weight:700;letter-spacing:.5px}
.run .cutwords,.run .stopwords{font-size:15px;font-weight:700}
.run .met,.run .bad{font-weight:650}
.run .line,.run .halo,.run .hair,.run .thin,.run .cross{fill:none}
.run .line{stroke-width:4}.run .thin{stroke-width:1.5}.run .halo{stroke-width:10}
.run .line.mark{stroke-width:3;stroke-dasharray:6 4}.run .line.fence{stroke-width:3;stroke-dasharray:2 4}
.run .line.past{stroke-width:2;stroke-dasharray:2 4}
.run .box{stroke-width:1.5}.run .mark .box,.run .brief .box{stroke-dasharray:4 3}.run .ring{stroke-width:3}
.run .stretch{fill-opacity:.16}.run .still .stretch{fill-opacity:1}
.run .cross{stroke-width:3}.run .stop{stroke-width:2}
.run .gone .box{stroke-dasharray:4 3}.run .gone text{text-decoration:line-through}
";

/// For a case of so many locations.
pub fn style(count: usize) -> String {
    let own = locations(count);
    let light = paint(own, |(name, light, _)| (name, light), |(light, _)| light);
    let dark = paint(own, |(name, _, dark)| (name, dark), |(_, dark)| dark);
    format!("<style>{SHAPES}{light}@media (prefers-color-scheme:dark){{{dark}}}\n</style>")
}

/// The same colours as variables, for a page around the picture.
pub fn variables(count: usize) -> String {
    let own = locations(count);
    let light = declare(own, |(_, light, _)| light, |(light, _)| light);
    let dark = declare(own, |(_, _, dark)| dark, |(_, dark)| dark);
    let classes: String = (0..own.len())
        .map(|at| format!(".c{at}{{--c:var(--c{at})}}"))
        .collect();
    format!(":root{{{light}}}\n@media (prefers-color-scheme:dark){{:root{{{dark}}}}}\n{classes}")
}

fn locations(count: usize) -> &'static [Pair] {
    &LOCATIONS[..count.clamp(LEAST, LOCATIONS.len())]
}

fn declare(
    own: &[Pair],
    colour: impl Fn(Colour) -> &'static str,
    location: impl Fn(Pair) -> &'static str,
) -> String {
    let named = COLOURS
        .into_iter()
        .map(|one| format!("--{}:{};", &one.0[1..], colour(one)));
    let numbered = own.iter().enumerate();
    named
        .chain(numbered.map(|(at, pair)| format!("--c{at}:{};", location(*pair))))
        .collect()
}

type Colour = (&'static str, &'static str, &'static str);
type Pair = (&'static str, &'static str);

/// The rules with the colours put in.
fn paint(
    own: &[Pair],
    colour: impl Fn(Colour) -> Pair,
    location: impl Fn(Pair) -> &'static str,
) -> String {
    let pairs = COLOURS.into_iter().map(colour);
    let rules = |(number, pair): (usize, &Pair)| {
        LOCATION
            .replace('#', &number.to_string())
            .replace("$c", location(*pair))
    };
    let locations: String = own.iter().enumerate().map(rules).collect();
    locations
        + &pairs.fold(RULES.to_string(), |rules, (name, value)| {
            rules.replace(name, value)
        })
}
