//! A reader of timing diagrams: what each lane shows, from its paths' coordinates and the labels of the ticks.

use timing::Level;

use crate::xml::Element;

/// The first label and the last: places in pixels, and ticks.
#[derive(Debug, Clone, Copy, PartialEq)]
pub struct Scale {
    left: f64,
    right: f64,
    pub from: u32,
    pub to: u32,
}

impl Scale {
    /// The place of a tick of the cut.
    pub fn across(&self, tick: u32) -> f64 {
        self.left + f64::from(tick - self.from) * self.pixels()
    }

    /// The pixels of a tick.
    fn pixels(&self) -> f64 {
        (self.right - self.left) / f64::from(self.to - self.from)
    }

    /// Whether so many ticks take less than so many pixels.
    pub fn is_below(&self, ticks: u32, pixels: f64) -> bool {
        f64::from(ticks) * (self.right - self.left) < pixels * f64::from(self.to - self.from)
    }

    /// The tick of a place that is one up to rounding.
    fn tick(&self, across: f64) -> Result<u32, String> {
        let ticks = ((across - self.left) / self.pixels()).round();
        let tick = self.from + ticks as u32;
        match (self.across(tick) - across).abs() <= ROUNDING && ticks >= 0.0 && tick <= self.to {
            true => Ok(tick),
            false => Err(format!("{across} is no tick")),
        }
    }
}

/// Coordinates have two decimals.
const ROUNDING: f64 = 0.011;

/// What a lane shows from one tick to another.
#[derive(Debug, Clone, Copy, PartialEq, Eq)]
pub struct Stretch {
    pub from: u32,
    pub to: u32,
    /// None for a grey block.
    pub value: Option<Level>,
}

#[derive(Debug)]
pub struct Lane {
    pub name: String,
    pub stretches: Vec<Stretch>,
}

/// The labels: places in pixels, and ticks.
pub fn labels(ticks: &Element) -> Vec<(f64, u32)> {
    let label = |text: &Element| {
        let tick = text.text.replace(',', "");
        (
            number(text, "x"),
            tick.parse().expect("a label is a number"),
        )
    };
    ticks.named("text").map(label).collect()
}

pub fn number(element: &Element, name: &str) -> f64 {
    let value = element
        .attribute(name)
        .unwrap_or_else(|| panic!("no {name}: {element:?}"));
    value
        .parse()
        .unwrap_or_else(|_| panic!("{name} is no number: {value}"))
}

/// The scale of a picture with lanes.
pub fn scale(picture: &Element) -> Scale {
    let ticks = picture.of("ticks").next().expect("there are ticks");
    let labels = labels(ticks);
    let [Some(&(left, from)), Some(&(right, to))] = [labels.first(), labels.last()] else {
        panic!("no labels");
    };
    Scale {
        left,
        right,
        from,
        to,
    }
}

/// The lanes, or what is wrong with them.
pub fn lanes(picture: &Element) -> Result<Vec<Lane>, String> {
    let scale = scale(picture);
    let bands = picture.of("bands").flat_map(|bands| &bands.children);
    let lanes = picture.of("lane").zip(bands);
    lanes
        .map(|(lane, band)| read_lane(lane, band, &scale))
        .collect()
}

/// A lane before its band, which says where it is and how high.
fn read_lane(lane: &Element, band: &Element, scale: &Scale) -> Result<Lane, String> {
    let top = format!("translate(0 {})", number(band, "y"));
    assert_eq!(lane.attribute("transform"), Some(top.as_str()));
    let limits = [number(band, "x"), number(band, "x") + number(band, "width")];
    assert_eq!(limits, [scale.left, scale.right]);
    let mut drawn = Drawn {
        low: number(band, "height"),
        stretches: Vec::new(),
        edges: Vec::new(),
    };
    for path in lane.named("path") {
        drawn.add(path)?;
    }
    Ok(Lane {
        name: lane.named("text").map(|line| line.text.as_str()).collect(),
        stretches: drawn.joined(scale)?,
    })
}

/// What the paths of a lane draw.
struct Drawn {
    /// The height of the line of 0. That of 1 is 0.
    low: f64,
    /// Left, right and value.
    stretches: Vec<(f64, f64, Option<Level>)>,
    /// Place, height before and height after.
    edges: Vec<(f64, f64, f64)>,
}

impl Drawn {
    fn add(&mut self, path: &Element) -> Result<(), String> {
        let commands = commands(path.attribute("d").ok_or("a path without commands")?)?;
        match path.attribute("class") {
            Some("line") => self.line(&commands),
            Some("none") => self.dashes(&commands),
            Some("unknown") => self.boxes(&commands, Some(Level::Unknown)),
            Some("close") => self.boxes(&commands, None),
            class => Err(format!("a path of class {class:?}")),
        }
    }

    fn line(&mut self, commands: &[Command]) -> Result<(), String> {
        let mut pen = None;
        for &command in commands {
            pen = Some(match (command, pen) {
                (Command::Move(x, y), _) => (x, y),
                (Command::Across(to), Some((x, y))) => {
                    let value = match y {
                        0.0 => Level::High,
                        y if y == self.low => Level::Low,
                        _ => return Err(format!("a line at height {y}")),
                    };
                    self.stretches.push((x, to, Some(value)));
                    (to, y)
                }
                (Command::Down(to), Some((x, y))) => {
                    self.edges.push((x, y, to));
                    (x, to)
                }
                _ => return Err(format!("{command:?} in a line")),
            });
        }
        Ok(())
    }

    fn dashes(&mut self, commands: &[Command]) -> Result<(), String> {
        let (dashes, []) = commands.as_chunks() else {
            return Err("half a dash".to_string());
        };
        for dash in dashes {
            match *dash {
                [Command::Move(x, y), Command::Across(to)] if y == self.middle() => {
                    self.stretches.push((x, to, Some(Level::None)));
                }
                _ => return Err(format!("{dash:?} in dashes")),
            }
        }
        Ok(())
    }

    fn boxes(&mut self, commands: &[Command], value: Option<Level>) -> Result<(), String> {
        let (boxes, []) = commands.as_chunks() else {
            return Err("half a box".to_string());
        };
        for around in boxes {
            let &[Command::Move(left, 0.0), Command::Across(right), down, back, Command::Close] =
                around
            else {
                return Err(format!("{around:?} in boxes"));
            };
            if [down, back] != [Command::Down(self.low), Command::Across(left)] {
                return Err(format!("{around:?} in boxes"));
            }
            self.stretches.push((left, right, value));
        }
        Ok(())
    }

    fn middle(&self) -> f64 {
        self.low / 2.0
    }

    /// The height of a value's line. Boxes and blocks have none.
    fn height(&self, value: Option<Level>) -> Option<f64> {
        match value? {
            Level::High => Some(0.0),
            Level::Low => Some(self.low),
            Level::None => Some(self.middle()),
            Level::Unknown => None,
        }
    }

    /// The stretches in order. They leave no gap, and an edge stands exactly where a line becomes another.
    fn joined(mut self, scale: &Scale) -> Result<Vec<Stretch>, String> {
        self.stretches
            .sort_by(|one, other| one.0.total_cmp(&other.0));
        self.edges.sort_by(|one, other| one.0.total_cmp(&other.0));
        let mut end = scale.left;
        let mut edges = Vec::new();
        let mut before = None;
        for &(left, right, value) in &self.stretches {
            if left != end || right <= left {
                return Err(format!("{left} to {right} after {end}"));
            }
            let after = self.height(value);
            edges.extend(
                before
                    .zip(after)
                    .map(|(before, after)| (left, before, after)),
            );
            end = right;
            before = after;
        }
        if end != scale.right {
            return Err(format!("the last value ends at {end}"));
        }
        if edges != self.edges {
            return Err(format!("edges {:?} in place of {edges:?}", self.edges));
        }
        let stretch = |&(left, right, value): &(f64, f64, _)| {
            let [from, to] = [scale.tick(left)?, scale.tick(right)?];
            Ok(Stretch { from, to, value })
        };
        self.stretches.iter().map(stretch).collect()
    }
}

#[derive(Debug, Clone, Copy, PartialEq)]
enum Command {
    Move(f64, f64),
    Across(f64),
    Down(f64),
    Close,
}

/// The commands of a path: M, H, V and Z.
fn commands(path: &str) -> Result<Vec<Command>, String> {
    let starts = path.match_indices(|c: char| c.is_ascii_alphabetic());
    let starts: Vec<usize> = starts.map(|(place, _)| place).collect();
    if starts.first() != Some(&0) {
        return Err(format!("a path that begins with {path:.10}"));
    }
    let ends = starts.iter().skip(1).copied().chain([path.len()]);
    let parts = starts
        .iter()
        .zip(ends)
        .map(|(&start, end)| &path[start..end]);
    parts.map(command).collect()
}

fn command(part: &str) -> Result<Command, String> {
    let wrong = || format!("the command {part}");
    let number = |text: &str| match text
        .bytes()
        .all(|byte| byte.is_ascii_digit() || byte == b'.')
    {
        true => text.parse().map_err(|_| wrong()),
        false => Err(wrong()),
    };
    let (letter, rest) = part.split_at(1);
    match (letter, rest.split_once(' ')) {
        ("M", Some((x, y))) => Ok(Command::Move(number(x)?, number(y)?)),
        ("H", None) => Ok(Command::Across(number(rest)?)),
        ("V", None) => Ok(Command::Down(number(rest)?)),
        ("Z", None) if rest.is_empty() => Ok(Command::Close),
        _ => Err(wrong()),
    }
}
