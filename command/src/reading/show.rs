//! `show`: one element in words.

use super::list;
use crate::arguments::Arguments;
use crate::files::{self, File};
use crate::help::Subcommand;
use crate::output::{self, Output, Stop};
use crate::parts;
use dgn::{Bounds, Curve, Dimension, LinkageKind, Number, Point, Turn, Type, View};

/// The subcommand.
pub const SUBCOMMAND: Subcommand = Subcommand {
    name: "show",
    usages: &["FILE CODE|PLACE"],
    about: "show an element: what it says of itself, its points, its linkages",
    text: "\
All that the file says of one element: where it stands, its extent (its own words and those of all under it), its level, range, \
display, name, points, characters, axes with origin and angles, and linkages, each where it has them. Points, ranges, axes and origins \
are in units of resolution, ranges in the coordinates of points. Of a line, line string, shape or curve it is said whether all points lie \
in the range. A range that was never made is stored as zeros, which is the lowest corner twice. Of angles 360,000 is a degree, and bit 31 \
of a sweep is shown as a part of the number.

With --tsv a line for each fact: file, 2D or 3D, place of the element, name of the fact, fact.",
    choices: &[],
    words: (2, 2),
    instead: None,
    run,
};

fn run(arguments: &Arguments, output: &mut Output) -> Result<(), Stop> {
    let which = parts::which(&arguments.words[1])?;
    let Some(file) = File::open(&arguments.words[0], arguments, output) else { return Ok(()) };
    let Some(place) = file.one(&which, output) else { return Ok(()) };
    let facts = facts(&file, place).expect("an element of a file that was accepted");
    if !output.tsv {
        output.line(file.heading())?;
    }
    for (name, fact) in facts {
        if output.tsv {
            let (file, dimension) = (output::column(file.name), files::shown(file.dimension));
            output.row(&[&file, &dimension, &place, &name, &fact])?;
        } else {
            output.line(format!("{name:<16} {fact}").trim_end())?;
        }
    }
    Ok(())
}

/// Names of facts, and the facts.
type Facts = Vec<(String, String)>;

fn facts(file: &File, place: usize) -> Result<Facts, dgn::Refusal> {
    let (bytes, dimension) = (&file.bytes[..], file.dimension);
    let view = dgn::view(bytes, dimension, place)?;
    let extent = dgn::extent(bytes, dimension, place)?;
    let mut facts = Vec::new();
    let mut add = |name: &str, fact: String| facts.push((name.to_string(), fact));
    add("element", format!("type {}, {}", view.kind.number(), list::kind(view.kind)));
    if let Some(code) = parts::code(&view) {
        add("code", parts::shown(&code));
    }
    add("state", parts::state(view.deleted).into());
    add("place", format!("@{place}, byte {}", 2 * place));
    add("stands", stands(file, &view)?);
    add("extent", format!("words {} to {}, {}", extent.start, extent.end - 1, output::count(extent.len(), "word")));
    add("own words", view.size.to_string());
    add("elements under", under(file, &view).to_string());
    if let Some(count) = view.components {
        add("components", count.to_string());
    }
    add("level", view.level.to_string());
    if let Some(bounds) = view.bounds {
        add("range", range(bounds, dimension));
    }
    if let Some(held) = held(file, place)? {
        add("points in range", held.into());
    }
    if let Some(display) = view.display {
        add("colour", display.colour.to_string());
        add("weight", display.weight.to_string());
        add("style", display.style.to_string());
        add("graphic group", display.graphic_group.to_string());
        add("properties", display.properties.to_string());
    }
    facts.extend(points(file, &view)?);
    facts.extend(text(file, &view)?);
    facts.extend(curve(file, &view)?);
    facts.extend(linkages(file, &view));
    Ok(facts)
}

/// Where it stands.
fn stands(file: &File, view: &View) -> Result<String, dgn::Refusal> {
    let Some(header) = view.header else { return Ok("at the top".into()) };
    let header = dgn::view(&file.bytes, file.dimension, header)?;
    let code = parts::code(&header).map_or(String::new(), |code| format!(" {}", parts::shown(&code)));
    Ok(format!("under the {}{code} at @{}, depth {}", list::kind(header.kind), header.place, view.depth))
}

/// How many elements stand under it.
fn under(file: &File, view: &View) -> usize {
    let behind = parts::walk(&file.bytes, file.dimension).skip_while(|other| other.place <= view.place);
    behind.take_while(|other| other.depth > view.depth).count()
}

fn range(bounds: Bounds, dimension: Dimension) -> String {
    let axes = ["x", "y", "z"].into_iter().zip(bounds.low.into_iter().zip(bounds.high)).take(dimension as usize);
    let shown = axes.map(|(axis, (low, high))| format!("{axis} {low} to {high}")).collect::<Vec<_>>().join(", ");
    let zeros = bounds == Bounds { low: [i32::MIN; 3], high: [i32::MIN; 3] };
    shown + if zeros { " (stored as zeros)" } else { "" }
}

/// Whether its points lie in its range; none where that is not asked of its type.
fn held(file: &File, place: usize) -> Result<Option<&'static str>, dgn::Refusal> {
    match dgn::in_range(&file.bytes, file.dimension, place) {
        Ok(true) => Ok(Some("all")),
        Ok(false) => Ok(Some("not all")),
        Err(refusal) if refusal.number == Number::Kind => Ok(None),
        Err(refusal) => Err(refusal),
    }
}

fn coordinates(point: Point, dimension: Dimension) -> String {
    match dimension {
        Dimension::Two => format!("{} {}", point.x, point.y),
        Dimension::Three => format!("{} {} {}", point.x, point.y, point.z),
    }
}

/// Its points, where it has any.
fn points(file: &File, view: &View) -> Result<Facts, dgn::Refusal> {
    let count = match view.kind {
        Type::Line => 2,
        _ => view.points.unwrap_or(0),
    };
    let point = |k| dgn::point(&file.bytes, file.dimension, view.place, k);
    (0..count).map(|k| Ok((format!("point {k}"), coordinates(point(k)?, file.dimension)))).collect()
}

/// The numbers and characters of a text.
fn text(file: &File, view: &View) -> Result<Facts, dgn::Refusal> {
    if view.kind != Type::Text {
        return Ok(Vec::new());
    }
    let text = dgn::text(&file.bytes, file.dimension, view.place)?;
    let mut facts = vec![
        ("text".to_string(), output::characters(&file.bytes[text.characters])),
        ("font".to_string(), text.font.to_string()),
        ("justification".to_string(), text.justification.to_string()),
        ("length, stored".to_string(), text.length.to_string()),
        ("height, stored".to_string(), text.height.to_string()),
        ("turn, stored".to_string(), turn(text.turn)),
        ("origin".to_string(), coordinates(text.origin, file.dimension)),
    ];
    for k in 0..usize::from(text.fields) {
        let field = dgn::field(&file.bytes, file.dimension, view.place, k)?;
        let shown =
            format!("from character {}, {} long, justification {}", field.first, field.length, field.justification);
        facts.push((format!("field {k}"), shown));
    }
    Ok(facts)
}

fn turn(turn: Turn) -> String {
    match turn {
        Turn::Flat(rotation) => rotation.to_string(),
        Turn::Solid(numbers) => numbers.map(|number| number.to_string()).join(" "),
    }
}

/// The axes, origin and angles of an ellipse or an arc. A float is shown by the fewest digits that no other one is nearest to.
fn curve(file: &File, view: &View) -> Result<Facts, dgn::Refusal> {
    if !matches!(view.kind, Type::Ellipse | Type::Arc) {
        return Ok(Vec::new());
    }
    let (angles, of) = match dgn::curve(&file.bytes, file.dimension, view.place)? {
        Curve::Ellipse(of) => (None, of),
        Curve::Arc { start, sweep, of } => (Some((start, sweep)), of),
    };
    let origin = [of.origin.x, of.origin.y, of.origin.z];
    let origin = origin[..file.dimension as usize].iter().map(f64::to_string).collect::<Vec<_>>().join(" ");
    let mut facts = vec![
        ("primary axis".to_string(), of.primary.to_string()),
        ("secondary axis".to_string(), of.secondary.to_string()),
        ("turn, stored".to_string(), turn(of.turn)),
        ("origin".to_string(), origin),
    ];
    if let Some((start, sweep)) = angles {
        facts.push(("start, stored".to_string(), start.to_string()));
        facts.push(("sweep, stored".to_string(), sweep.to_string()));
    }
    Ok(facts)
}

/// Its linkages, where it has any.
fn linkages(file: &File, view: &View) -> Facts {
    let mut facts = Vec::new();
    // there is none behind the last
    while let Ok(linkage) = dgn::linkage(&file.bytes, file.dimension, view.place, facts.len()) {
        let kind = match linkage.kind {
            LinkageKind::User => format!("user, id {}", linkage.id),
            LinkageKind::Other => "other".into(),
        };
        let words = output::count(linkage.size, "word");
        facts.push((format!("linkage {}", facts.len()), format!("{kind}, {words} at @{}", linkage.place)));
    }
    facts
}
