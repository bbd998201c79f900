// SPDX-License-Identifier: Apache-2.0
//! Into a WAVE file: what `render` and `demo` share.
use super::meters::Meters;
use crate::arguments;
use crate::files;
use crate::hall::{Counts, Listener, Refused};
use crate::numbers::{clock, decibels};
use crate::trouble::Trouble;
use crate::wave::{Format, Sample, Wave};
use std::ffi::OsString;
use std::fs::File;
use std::io::{self, IsTerminal, Write};
use std::time::{Duration, Instant};
use voqlisna::{Layout, Rendered};

/// Writes what is heard. The file is made with the first accepted frame, whose rate is the file's.
pub struct Recorder<'a> {
    to: &'a OsString,
    rf64: bool,
    sample: Sample,
    wave: Option<Wave>,
    rate: u32,
    /// Of the hall, from the first samples on.
    layout: Layout,
    rows: u64,
    peak: f32,
    meters: Option<Meters>,
    /// Standard output has samples or columns.
    taken: bool,
    /// The first refused frame, as `tell` has it.
    pub first: Option<String>,
    tell: fn(&Refused<'_>) -> String,
    progress: Progress,
}

impl<'a> Recorder<'a> {
    /// `tell`: what is kept of the first refused frame.
    pub fn new(
        to: &'a OsString,
        rf64: bool,
        sample: Sample,
        meters: &arguments::Meters,
        tell: fn(&Refused<'_>) -> String,
    ) -> Result<Self, Trouble> {
        let file = meters.file();
        let shown = !matches!(meters, arguments::Meters::None);
        let meters = shown.then(|| Meters::new(file)).transpose()?;
        Ok(Self {
            taken: to == "-" || file.is_some_and(|file| file == "-"),
            meters,
            to,
            rf64,
            sample,
            wave: None,
            rate: 0,
            layout: Layout::default(),
            rows: 0,
            peak: 0.0,
            first: None,
            tell,
            progress: Progress::new(),
        })
    }

    fn begin(&mut self, rate: u32, layout: Layout) -> io::Result<()> {
        let sample = self.sample;
        let format = Format {
            rate,
            layout,
            sample,
        };
        self.wave = Some(if self.to == "-" {
            Wave::pipe(Box::new(io::stdout().lock()), format)?
        } else {
            Wave::file(File::create(self.to)?, format, self.rf64)?
        });
        (self.rate, self.layout) = (rate, layout);
        Ok(())
    }

    fn write(&mut self, rate: u32, sound: &Rendered<'_>) -> io::Result<()> {
        if self.wave.is_none() {
            self.begin(rate, sound.layout())?;
        }
        self.wave.as_mut().map_or(Ok(()), |w| w.put(sound))
    }

    fn seconds(&self) -> f64 {
        self.rows as f64 / f64::from(self.rate.max(1))
    }

    /// Closes the file, whatever ended the run; what the run came to, and whether there is a file.
    pub fn close<T>(&mut self, ran: Result<T, Trouble>) -> Result<(T, bool), Trouble> {
        self.progress.clear();
        let name = files::name_out(self.to);
        match (self.wave.take(), ran) {
            (None, ran) => Ok((ran?, false)),
            (Some(wave), Err(Trouble::Failed(message))) => Err(rescued(wave, message)),
            (Some(mut wave), ran) => match wave.close().map_err(|e| Trouble::io(&name, &e)) {
                Err(Trouble::Failed(message)) => Err(rescued(wave, message)),
                Err(trouble) => Err(trouble),
                Ok(()) => Ok((ran?, true)),
            },
        }
    }

    /// "show.wav: 20.000 s, 12 channels (FL .. TBR), peak -0.9 dB"
    pub fn summary(&self) -> String {
        let speakers = self.layout.speakers().iter();
        let names: Vec<&str> = speakers.map(|s| s.short_name()).collect();
        format!(
            "{}: {:.3} s, {} channels ({}), peak {}",
            files::name_out(self.to),
            self.seconds(),
            names.len(),
            names.join(" "),
            decibels(self.peak)
        )
    }

    /// What the limiter met, where it was asked for; behind it nothing more is metered.
    pub fn say_meters(&mut self) -> Result<(), Trouble> {
        let Some(meters) = self.meters.take() else {
            return Ok(());
        };
        let text = meters.summary();
        meters.close()?;
        self.say(&text)
    }

    /// Says it on standard output, or on standard error where samples or columns go there.
    pub fn say(&self, text: &str) -> Result<(), Trouble> {
        if self.taken {
            let _ = writeln!(io::stderr(), "{text}");
            return Ok(());
        }
        let mut out = files::Out::standard();
        out.line(text)?;
        out.close()
    }
}

/// After a failed write: what is there is made a whole file, where that can be done.
pub fn rescued(wave: Wave, message: String) -> Trouble {
    Trouble::Failed(match wave.rescue() {
        Some(seconds) => format!("{message}; {seconds:.1} s were written and closed"),
        None => message,
    })
}

impl Listener for Recorder<'_> {
    fn sound(&mut self, rate: u32, sound: &Rendered<'_>) -> Result<(), Trouble> {
        if self.wave.is_some() && rate != self.rate {
            return Err(Trouble::Wrong(format!(
                "{}: at {:.3} s the programme goes on at {rate} Hz, and a file has one rate, here {} Hz",
                files::name_out(self.to),
                self.seconds(),
                self.rate
            )));
        }
        let name = files::name_out(self.to);
        self.write(rate, sound)
            .map_err(|e| Trouble::io(&name, &e))?;
        let at = self.seconds();
        if let Some(meters) = &mut self.meters {
            meters.add(at, rate, sound)?;
        }
        self.rows += sound.ready() as u64;
        for (_, channel) in sound.channels() {
            self.peak = channel.iter().fold(self.peak, |p, x| p.max(x.abs()));
        }
        Ok(())
    }

    fn refused(&mut self, what: &Refused<'_>) -> Result<(), Trouble> {
        if self.first.is_none() {
            self.first = Some((self.tell)(what));
        }
        Ok(())
    }

    fn step(&mut self, part: Option<f64>, counts: &Counts) {
        if self.progress.is_due() {
            let seconds = self.seconds();
            let text = match &mut self.meters {
                Some(meters) => meters.bars(),
                None => self.progress.told(seconds, self.peak, counts),
            };
            self.progress.show(seconds, part, &text);
        }
    }
}

/// One line on standard error, where that is a terminal.
struct Progress {
    began: Instant,
    next: Option<Instant>,
    shown: bool,
}

const EVERY: Duration = Duration::from_millis(100);

impl Progress {
    fn new() -> Self {
        let began = Instant::now();
        let next = io::stderr().is_terminal().then(|| began + EVERY);
        Self {
            began,
            next,
            shown: false,
        }
    }

    fn is_due(&self) -> bool {
        self.next.is_some_and(|next| Instant::now() >= next)
    }

    /// "190 x real time, peak -3.1 dB, 2 concealed, 0 lost"
    fn told(&self, seconds: f64, peak: f32, counts: &Counts) -> String {
        let times = seconds / self.began.elapsed().as_secs_f64();
        let (peak, concealed, lost) = (decibels(peak), counts.concealed, counts.lost);
        format!("{times:.0} x real time, peak {peak}, {concealed} concealed, {lost} lost")
    }

    /// Behind the time and the part that is read: "0:31.2, 26 %, .."
    fn show(&mut self, seconds: f64, part: Option<f64>, text: &str) {
        let part = part.map_or(String::new(), |p| format!(", {:.0} %", 100.0 * p));
        let _ = write!(io::stderr(), "\r\x1b[K{}{part}, {text}", clock(seconds));
        self.shown = true;
        self.next = Some(Instant::now() + EVERY);
    }

    fn clear(&self) {
        if self.shown {
            let _ = write!(io::stderr(), "\r\x1b[K");
        }
    }
}
