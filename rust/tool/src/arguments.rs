// SPDX-License-Identifier: Apache-2.0
//! The command line.
use crate::trouble::Trouble;
use crate::wave::Sample;
use lexopt::{Arg, Parser, prelude::*};
use std::ffi::OsString;
use voqlisna::{Layout, Speaker, UnknownLayout};

/// What a refused frame does to a rendering.
#[derive(Clone, Copy, PartialEq)]
pub enum Policy {
    Conceal,
    Stop,
}

/// The hall that is played in.
#[derive(Clone)]
pub struct Hall {
    pub layout: Layout,
    /// The file of its table, where one is named.
    pub table: Option<OsString>,
}

#[derive(Clone)]
pub enum Picture {
    Map(Hall),
    Bass,
    Decay,
    Limiter,
    Levels,
    Hold,
}

/// Where the limiter's meters go.
#[derive(Clone)]
pub enum Meters {
    None,
    /// To the terminal, and a line at the end.
    Shown,
    /// There, and in columns to a file.
    Written(OsString),
}

impl Meters {
    pub fn file(&self) -> Option<&OsString> {
        match self {
            Self::None | Self::Shown => None,
            Self::Written(file) => Some(file),
        }
    }
}

pub struct Render {
    pub from: OsString,
    pub to: OsString,
    pub policy: Policy,
    pub hall: Hall,
    pub rf64: bool,
    pub sample: Sample,
    pub meters: Meters,
    /// A file of them.
    pub cues: Option<OsString>,
}

pub struct Demo {
    pub to: OsString,
    pub seconds: f64,
    pub hall: Hall,
    pub sample: Sample,
    pub meters: Meters,
    pub cues: Option<OsString>,
}

/// A question for a place, where just these speakers sound.
pub struct Where {
    pub speakers: Vec<Speaker>,
    pub hall: Hall,
    /// The SVG file to draw it into.
    pub picture: Option<OsString>,
}

pub enum Command {
    Help,
    Version,
    Demo(Demo),
    Render(Render),
    Check {
        from: OsString,
    },
    Dump {
        from: OsString,
    },
    Undump {
        from: OsString,
        to: OsString,
    },
    Hex {
        from: OsString,
    },
    Archive {
        from: OsString,
        to: OsString,
    },
    Unarchive {
        from: OsString,
        to: OsString,
        rf64: bool,
    },
    /// A WAVE file of 24 bits in f32.
    Floats {
        from: OsString,
        to: OsString,
        rf64: bool,
    },
    Draw {
        what: Picture,
        to: OsString,
    },
    Table(Hall),
    Where(Where),
    /// Each set of speakers for which there is a place.
    Places(Hall),
}

const COMMANDS: [&str; 15] = [
    "demo",
    "render",
    "check",
    "dump",
    "undump",
    "hex",
    "archive",
    "unarchive",
    "floats",
    "map",
    "plot",
    "table",
    "where",
    "version",
    "help",
];
const PLOTS: [&str; 5] = ["bass", "decay", "limiter", "levels", "hold"];

/// The seconds that a demo may have: a frame at least, an hour at most.
const SECONDS: std::ops::RangeInclusive<f64> = 0.01..=3600.0;

pub fn read() -> Result<Command, Trouble> {
    parse(Parser::from_env())
}

fn parse(mut parser: Parser) -> Result<Command, Trouble> {
    let name = match parser.next().map_err(wrong)? {
        None => {
            let message = "a command is missing: voqlisna help lists them";
            return Err(Trouble::Wrong(message.into()));
        }
        Some(Short('h') | Long("help")) => return Ok(Command::Help),
        Some(Short('V') | Long("version")) => return Ok(Command::Version),
        Some(Value(name)) => name.to_string_lossy().into_owned(),
        Some(other) => return Err(unknown(&other, &["help", "version"])),
    };
    let known: &[&str] = match name.as_str() {
        "demo" => &["o", "s", "layout", "table", "bits", "meters", "cues"],
        "render" => &[
            "o", "conceal", "stop", "layout", "table", "bits", "rf64", "meters", "cues",
        ],
        "where" => &["layout", "table", "picture", "all"],
        "unarchive" | "floats" => &["o", "rf64"],
        "map" => &["o", "layout", "table"],
        "table" => &["layout"],
        "undump" | "archive" | "plot" => &["o"],
        _ => &[],
    };
    let given = Given::read(&mut parser, known)?;
    if given.help {
        return Ok(Command::Help);
    }
    command(&name, given)
}

fn command(name: &str, given: Given) -> Result<Command, Trouble> {
    let from = || given.only("IN");
    match name {
        "check" => Ok(Command::Check { from: from()? }),
        "dump" => Ok(Command::Dump { from: from()? }),
        "hex" => Ok(Command::Hex { from: from()? }),
        "demo" => given.demo(),
        "render" => given.render(),
        "undump" => given.undump(),
        "archive" => given.archive(),
        "unarchive" => given.unarchive(),
        "floats" => given.floats(),
        "map" => given.none().and_then(Given::map),
        "plot" => given.plot(),
        "table" => given.told_table(),
        "where" if given.all => given.places(),
        "where" => given.place(),
        "version" => given.none().map(|_| Command::Version),
        "help" => given.none().map(|_| Command::Help),
        _ => {
            let meant = meant(name, &COMMANDS, "");
            Err(Trouble::Wrong(format!("unknown command {name}{meant}")))
        }
    }
}

/// What stood behind the command.
#[derive(Default)]
struct Given {
    values: Vec<OsString>,
    to: Option<OsString>,
    seconds: Option<OsString>,
    layout: Option<OsString>,
    table: Option<OsString>,
    bits: Option<OsString>,
    /// The option, and its file where it names one.
    meters: Option<Option<OsString>>,
    cues: Option<OsString>,
    picture: Option<OsString>,
    all: bool,
    conceal: bool,
    stop: bool,
    rf64: bool,
    help: bool,
}

impl Given {
    fn read(parser: &mut Parser, known: &[&str]) -> Result<Self, Trouble> {
        let mut given = Self::default();
        while let Some(arg) = parser.next().map_err(wrong)? {
            match arg {
                Short('o') if known.contains(&"o") => {
                    given.to = Some(parser.value().map_err(wrong)?);
                }
                Short('s') if known.contains(&"s") => {
                    given.seconds = Some(parser.value().map_err(wrong)?);
                }
                Long("layout") if known.contains(&"layout") => {
                    given.layout = Some(parser.value().map_err(wrong)?);
                }
                Long("table") if known.contains(&"table") => {
                    given.table = Some(parser.value().map_err(wrong)?);
                }
                Long("bits") if known.contains(&"bits") => {
                    given.bits = Some(parser.value().map_err(wrong)?);
                }
                Long("cues") if known.contains(&"cues") => {
                    given.cues = Some(parser.value().map_err(wrong)?);
                }
                Long("picture") if known.contains(&"picture") => {
                    given.picture = Some(parser.value().map_err(wrong)?);
                }
                Long("all") if known.contains(&"all") => given.all = true,
                Long("conceal") if known.contains(&"conceal") => given.conceal = true,
                Long("stop") if known.contains(&"stop") => given.stop = true,
                Long("rf64") if known.contains(&"rf64") => given.rf64 = true,
                Long("meters") if known.contains(&"meters") => {
                    given.meters = Some(parser.optional_value());
                }
                Short('h') | Long("help") => given.help = true,
                Value(value) => given.values.push(value),
                other => return Err(unknown(&other, known)),
            }
        }
        Ok(given)
    }

    /// Exactly one value.
    fn only(&self, what: &str) -> Result<OsString, Trouble> {
        match self.values.as_slice() {
            [one] => Ok(one.clone()),
            [] => Err(Trouble::Wrong(format!("{what} is missing"))),
            [_, more, ..] => Err(too_much(more)),
        }
    }

    /// No value.
    fn none(self) -> Result<Self, Trouble> {
        match self.values.first() {
            None => Ok(self),
            Some(more) => Err(too_much(more)),
        }
    }

    fn to(&self, what: &str) -> Result<OsString, Trouble> {
        self.to.clone().ok_or_else(|| {
            Trouble::Wrong(format!(
                "-o FILE is missing ({what} to write, or - for standard output)"
            ))
        })
    }

    /// 7.1.4 where none is named.
    fn layout(&self) -> Result<Layout, Trouble> {
        let Some(name) = &self.layout else {
            return Ok(Layout::Hall714);
        };
        let layout = name.to_str().and_then(|name| name.parse().ok());
        layout.ok_or_else(|| {
            let name = name.to_string_lossy();
            Trouble::Wrong(format!("--layout {name}: {UnknownLayout}"))
        })
    }

    /// f32 where none is named.
    fn sample(&self) -> Result<Sample, Trouble> {
        match self.bits.as_ref().map(|bits| bits.to_string_lossy()) {
            None => Ok(Sample::Float),
            Some(bits) if bits == "32" => Ok(Sample::Float),
            Some(bits) if bits == "24" => Ok(Sample::Whole24),
            Some(bits) => Err(Trouble::Wrong(format!(
                "--bits {bits}: 32 (floats) or 24 (whole numbers)"
            ))),
        }
    }

    fn hall(&self) -> Result<Hall, Trouble> {
        let (layout, table) = (self.layout()?, self.table.clone());
        Ok(Hall { layout, table })
    }

    /// `to`: where the samples go.
    fn meters(&self, to: &OsString) -> Result<Meters, Trouble> {
        match &self.meters {
            None => Ok(Meters::None),
            Some(None) => Ok(Meters::Shown),
            Some(Some(file)) if file.is_empty() => {
                Err(Trouble::Wrong("--meters= needs a file behind it".into()))
            }
            Some(Some(file)) if file == to => Err(Trouble::Wrong(
                "-o and --meters: samples and meters cannot go to one file".into(),
            )),
            Some(Some(file)) => Ok(Meters::Written(file.clone())),
        }
    }

    fn demo(self) -> Result<Command, Trouble> {
        let given = self.none()?;
        let seconds = match &given.seconds {
            None => 20.0,
            Some(text) => text
                .to_str()
                .and_then(|t| t.parse().ok())
                .filter(|s| SECONDS.contains(s))
                .ok_or_else(|| {
                    Trouble::Wrong(format!(
                        "-s {}: seconds from {} to {} are taken",
                        text.to_string_lossy(),
                        SECONDS.start(),
                        SECONDS.end()
                    ))
                })?,
        };
        given.one_input(None)?;
        let to = given.to.clone().unwrap_or_else(|| "show.wav".into());
        let (hall, meters) = (given.hall()?, given.meters(&to)?);
        Ok(Command::Demo(Demo {
            to,
            seconds,
            hall,
            sample: given.sample()?,
            meters,
            cues: given.cues,
        }))
    }

    fn render(self) -> Result<Command, Trouble> {
        if self.conceal && self.stop {
            return Err(Trouble::Wrong(
                "--conceal and --stop: only one of them".into(),
            ));
        }
        let (from, to) = (self.only("IN")?, self.wave()?);
        self.one_input(Some(&from))?;
        let policy = match self.stop {
            true => Policy::Stop,
            false => Policy::Conceal,
        };
        Ok(Command::Render(Render {
            from,
            meters: self.meters(&to)?,
            to,
            policy,
            hall: self.hall()?,
            rf64: self.rf64,
            sample: self.sample()?,
            cues: self.cues,
        }))
    }

    /// Standard input is read once.
    fn one_input(&self, from: Option<&OsString>) -> Result<(), Trouble> {
        let (table, cues) = (self.table.as_ref(), self.cues.as_ref());
        let all = [("IN", from), ("--table", table), ("--cues", cues)];
        let named = |(_, file): &(&str, Option<&OsString>)| file.is_some_and(|file| file == "-");
        let mut standard = all.into_iter().filter(named).map(|(name, _)| name);
        match (standard.next(), standard.next()) {
            (Some(a), Some(b)) => Err(Trouble::Wrong(format!(
                "{a} and {b}: standard input cannot be both"
            ))),
            _ => Ok(()),
        }
    }

    /// The WAVE file to write.
    fn wave(&self) -> Result<OsString, Trouble> {
        let to = self.to("a WAVE file")?;
        if self.rf64 && to == "-" {
            return Err(Trouble::Wrong(
                "--rf64 needs a file: its sizes are written at the end".into(),
            ));
        }
        Ok(to)
    }

    fn archive(self) -> Result<Command, Trouble> {
        Ok(Command::Archive {
            from: self.only("IN.wav")?,
            to: self.to("an archive")?,
        })
    }

    fn unarchive(self) -> Result<Command, Trouble> {
        Ok(Command::Unarchive {
            from: self.only("IN")?,
            to: self.wave()?,
            rf64: self.rf64,
        })
    }

    fn floats(self) -> Result<Command, Trouble> {
        Ok(Command::Floats {
            from: self.only("IN.wav")?,
            to: self.wave()?,
            rf64: self.rf64,
        })
    }

    fn undump(self) -> Result<Command, Trouble> {
        Ok(Command::Undump {
            from: self.only("TEXT")?,
            to: self.to("a programme")?,
        })
    }

    fn map(self) -> Result<Command, Trouble> {
        let hall = self.hall()?;
        self.draw(Picture::Map(hall))
    }

    /// The built-in one, or that of a file.
    fn told_table(self) -> Result<Command, Trouble> {
        let table = match self.values.is_empty() {
            true => None,
            false => Some(self.only("FILE")?),
        };
        let layout = self.layout()?;
        Ok(Command::Table(Hall { layout, table }))
    }

    fn place(self) -> Result<Command, Trouble> {
        let named = |name: &OsString| {
            let name = name.to_string_lossy();
            Speaker::from_short_name(&name).ok_or_else(|| {
                let all = Speaker::ALL.map(Speaker::short_name).join(" ");
                Trouble::Wrong(format!("no channel is called {name}: they are {all}"))
            })
        };
        let speakers: Vec<Speaker> = self.values.iter().map(named).collect::<Result<_, _>>()?;
        if speakers.is_empty() {
            let message = "the loudspeakers are missing, as in: voqlisna where FL FC";
            return Err(Trouble::Wrong(message.into()));
        }
        Ok(Command::Where(Where {
            speakers,
            hall: self.hall()?,
            picture: self.picture,
        }))
    }

    fn places(self) -> Result<Command, Trouble> {
        if self.picture.is_some() {
            return Err(Trouble::Wrong(
                "--all and --picture: only one of them".into(),
            ));
        }
        let hall = self.none()?.hall()?;
        Ok(Command::Places(hall))
    }

    fn plot(self) -> Result<Command, Trouble> {
        let name = self.only("what to plot (bass, decay, limiter, levels or hold)")?;
        let name = name.to_string_lossy();
        let what = match name.as_ref() {
            "bass" => Picture::Bass,
            "decay" => Picture::Decay,
            "limiter" => Picture::Limiter,
            "levels" => Picture::Levels,
            "hold" => Picture::Hold,
            _ => {
                let meant = meant(&name, &PLOTS, "");
                return Err(Trouble::Wrong(format!("no plot of {name}{meant}")));
            }
        };
        self.draw(what)
    }

    fn draw(self, what: Picture) -> Result<Command, Trouble> {
        let to = self.to("an SVG file")?;
        Ok(Command::Draw { what, to })
    }
}

fn wrong(error: lexopt::Error) -> Trouble {
    Trouble::Wrong(error.to_string())
}

fn too_much(value: &OsString) -> Trouble {
    Trouble::Wrong(format!("unexpected argument {}", value.to_string_lossy()))
}

fn unknown(arg: &Arg<'_>, known: &[&str]) -> Trouble {
    let (dashes, name) = match arg {
        Short(letter) => ("-", letter.to_string()),
        Long(name) => ("--", (*name).to_owned()),
        Value(value) => return too_much(value),
    };
    let long: Vec<&str> = known.iter().copied().filter(|k| k.len() > 1).collect();
    let meant = if dashes == "--" {
        meant(&name, &long, dashes)
    } else {
        String::new()
    };
    Trouble::Wrong(format!("unknown option {dashes}{name}{meant}"))
}

/// "; did you mean ..?" where a known word is at most two edits away.
fn meant(word: &str, known: &[&str], dashes: &str) -> String {
    let near = known.iter().map(|k| (edits(word, k), k)).min();
    match near {
        Some((n, k)) if n <= 2 && n < word.len() => format!("; did you mean {dashes}{k}?"),
        _ => String::new(),
    }
}

/// Letters put in, left out, changed or swapped with the next between two words.
fn edits(a: &str, b: &str) -> usize {
    let (a, b): (Vec<char>, Vec<char>) = (a.chars().collect(), b.chars().collect());
    let mut rows = vec![(0..=b.len()).collect::<Vec<usize>>()];
    for i in 1..=a.len() {
        let mut row = vec![i];
        for j in 1..=b.len() {
            let changed = rows[i - 1][j - 1] + usize::from(a[i - 1] != b[j - 1]);
            let mut least = changed.min(rows[i - 1][j] + 1).min(row[j - 1] + 1);
            if i > 1 && j > 1 && a[i - 1] == b[j - 2] && a[i - 2] == b[j - 1] {
                least = least.min(rows[i - 2][j - 2] + 1);
            }
            row.push(least);
        }
        rows.push(row);
    }
    rows[a.len()][b.len()]
}

#[cfg(test)]
mod tests {
    use super::*;

    #[test]
    fn edits_are_counted() {
        assert_eq!(edits("render", "render"), 0);
        assert_eq!(edits("rendr", "render"), 1);
        assert_eq!(edits("fromat", "format"), 1);
        assert_eq!(edits("", "hex"), 3);
        assert_eq!(edits("plot", "map"), 4);
    }

    fn said(args: &[&str]) -> String {
        let args: Vec<OsString> = args.iter().map(OsString::from).collect();
        match parse(Parser::from_args(args)) {
            Ok(_) => "taken".to_owned(),
            Err(t) => t.message().unwrap_or("").to_owned(),
        }
    }

    const TAKEN: [&str; 53] = [
        "demo",
        "demo -o x -s 0.5",
        "demo -s20",
        "demo --meters",
        "render a -o b --meters",
        "render a --meters=c -o b",
        "render a -o b --meters=-",
        "render a -o b",
        "render a -o b --conceal",
        "render - -o - --stop",
        "render a -o b --rf64",
        "render a -o b --bits 24",
        "demo --bits=32",
        "floats a -o b",
        "floats - -o b --rf64",
        "render a -o b --layout 5.1.4",
        "demo --layout=7.1.0",
        "map --layout 5.1.0 -o b",
        "map --layout 7.1.4 -o b",
        "render a -o b --table c",
        "render - -o b --layout 5.1.4 --table=c",
        "render a -o b --table -",
        "demo --table c",
        "map --table c -o b",
        "table",
        "table a --layout 5.1.0",
        "check a",
        "dump -",
        "undump a -o b",
        "archive a -o -",
        "unarchive - -o b",
        "unarchive a -o b --rf64",
        "hex a",
        "map -o b",
        "plot bass -o b",
        "plot decay -o b",
        "plot limiter -o -",
        "plot levels -o b",
        "plot hold -o b",
        "render a -o b --cues c",
        "render a -o b --cues -",
        "render - -o b --table c --cues=d",
        "demo --cues c",
        "where FL",
        "where fl Fc TBR --layout 5.1.4 --table c --picture d",
        "where --all",
        "where --all --layout 5.1.0 --table -",
        "version",
        "--version",
        "-V",
        "help",
        "-h",
        "render --help",
    ];

    /// Lines, and what is said of them.
    const NOT: [(&str, &str); 49] = [
        ("rendr a", "unknown command rendr; did you mean render?"),
        ("sing", "unknown command sing"),
        (
            "render a -o b --rf46",
            "unknown option --rf46; did you mean --rf64?",
        ),
        (
            "render a -o b --meter",
            "unknown option --meter; did you mean --meters?",
        ),
        ("check a --meters", "unknown option --meters"),
        ("hex a --layout 5.1.4", "unknown option --layout"),
        ("plot levels -o b --layout 5.1.4", "unknown option --layout"),
        (
            "render a -o b --layout 5.1",
            "--layout 5.1: a layout is 7.1.4, 5.1.4, 7.1.0 or 5.1.0",
        ),
        (
            "map -o b --layuot 5.1.0",
            "unknown option --layuot; did you mean --layout?",
        ),
        ("demo --layout", "missing argument for option '--layout'"),
        ("demo --table", "missing argument for option '--table'"),
        ("check a --table b", "unknown option --table"),
        (
            "map -o b --tabel c",
            "unknown option --tabel; did you mean --table?",
        ),
        (
            "render - -o b --table -",
            "IN and --table: standard input cannot be both",
        ),
        ("table a b", "unexpected argument b"),
        ("render a -o b --meters c", "unexpected argument c"),
        (
            "render a -o b --meters=",
            "--meters= needs a file behind it",
        ),
        (
            "render a -o - --meters=-",
            "-o and --meters: samples and meters cannot go to one file",
        ),
        (
            "render a -o b --bits 16",
            "--bits 16: 32 (floats) or 24 (whole numbers)",
        ),
        ("demo --bits", "missing argument for option '--bits'"),
        ("hex a --bits 24", "unknown option --bits"),
        ("check a --stop", "unknown option --stop"),
        (
            "render a",
            "-o FILE is missing (a WAVE file to write, or - for standard output)",
        ),
        ("render -o b", "IN is missing"),
        ("render a c -o b", "unexpected argument c"),
        (
            "render a -o b --stop --conceal",
            "--conceal and --stop: only one of them",
        ),
        (
            "render a -o - --rf64",
            "--rf64 needs a file: its sizes are written at the end",
        ),
        ("archiv a", "unknown command archiv; did you mean archive?"),
        (
            "archive a",
            "-o FILE is missing (an archive to write, or - for standard output)",
        ),
        ("archive a -o b --rf64", "unknown option --rf64"),
        (
            "unarchive a -o - --rf64",
            "--rf64 needs a file: its sizes are written at the end",
        ),
        ("demo -s 0", "-s 0: seconds from 0.01 to 3600 are taken"),
        ("demo -s x", "-s x: seconds from 0.01 to 3600 are taken"),
        ("plot bas -o b", "no plot of bas; did you mean bass?"),
        (
            "plot -o b",
            "what to plot (bass, decay, limiter, levels or hold) is missing",
        ),
        (
            "render - -o b --cues -",
            "IN and --cues: standard input cannot be both",
        ),
        (
            "demo --table - --cues -",
            "--table and --cues: standard input cannot be both",
        ),
        ("check a --cues b", "unknown option --cues"),
        ("demo --cues", "missing argument for option '--cues'"),
        (
            "render a -o b --cue c",
            "unknown option --cue; did you mean --cues?",
        ),
        (
            "where",
            "the loudspeakers are missing, as in: voqlisna where FL FC",
        ),
        (
            "where FL L",
            "no channel is called L: they are FL FR FC LFE BL BR SL SR TFL TFR TBL TBR",
        ),
        ("where --all FL", "unexpected argument FL"),
        (
            "where --all --picture a",
            "--all and --picture: only one of them",
        ),
        ("where FL -o a", "unknown option -o"),
        (
            "where FL --pictrue a",
            "unknown option --pictrue; did you mean --picture?",
        ),
        ("wher FL", "unknown command wher; did you mean where?"),
        ("version 2", "unexpected argument 2"),
        ("demo -o", "missing argument for option '-o'"),
    ];

    #[test]
    fn what_is_taken_and_what_not() {
        for line in TAKEN {
            let args: Vec<&str> = line.split(' ').collect();
            assert_eq!(said(&args), "taken", "{line}");
        }
        for (line, message) in NOT {
            let args: Vec<&str> = line.split(' ').collect();
            assert_eq!(said(&args), message, "{line}");
        }
    }
}
