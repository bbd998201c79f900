// SPDX-License-Identifier: Apache-2.0
//! A programme through the renderer, ask after ask, as `render`, `check` and `demo` take it.
use crate::arguments::Policy;
use crate::cues::Cues;
use crate::programme::{Ask, Broken, Packet, Programme};
use crate::setup::Setup;
use crate::trouble::Trouble;
use std::collections::BTreeMap;
use voqlisna::{Concealer, MakeError, Output, Refusal, Rendered, Renderer, Stride};

/// A frame that was refused.
pub struct Refused<'a> {
    /// From 1.
    pub number: u64,
    /// The programme's time at the frame's start, in seconds.
    pub at: f64,
    pub frame: &'a Packet,
    pub refusal: Refusal,
}

/// What hears of a run.
pub trait Listener {
    /// Samples that are ready, at the stream's rate.
    fn sound(&mut self, rate: u32, sound: &Rendered<'_>) -> Result<(), Trouble>;
    fn refused(&mut self, what: &Refused<'_>) -> Result<(), Trouble>;
    /// After each ask, with the part of the programme that is read.
    fn step(&mut self, _part: Option<f64>, _counts: &Counts) {}
}

/// Counts of a run.
#[derive(Default)]
pub struct Counts {
    pub frames: u64,
    /// Most samples of a frame.
    pub longest: usize,
    /// The programme's time at the last frame's start, and at its end, in samples.
    pub last: u64,
    pub samples: u64,
    /// The programme's time, in seconds.
    pub seconds: f64,
    pub concealed: u64,
    pub lost: u64,
    /// Refused frames by the refusal's number.
    pub refused: BTreeMap<u32, u64>,
    /// The run ended at a refused frame.
    pub stopped: bool,
}

impl Counts {
    fn add(&mut self, frame: &Packet, refusal: Option<Refusal>, lost: bool) {
        self.frames += 1;
        self.last = self.samples;
        self.samples += frame.samples as u64;
        self.seconds += frame.seconds();
        self.longest = self.longest.max(frame.samples);
        if let Some(refusal) = refusal {
            *self.refused.entry(refusal.number()).or_default() += 1;
            if lost {
                self.lost += 1;
            } else {
                self.concealed += 1;
            }
        }
    }

    pub fn refused(&self) -> u64 {
        self.concealed + self.lost
    }
}

pub struct Hall {
    renderer: Renderer,
    out: Output,
    concealer: Concealer,
    /// The stream's: that of its first accepted frame.
    rate: Option<u32>,
    cues: Cues,
}

impl Hall {
    pub fn new(setup: &Setup) -> Result<Self, Trouble> {
        let stride = Stride::MAX;
        Ok(Self {
            renderer: renderer(setup)?,
            out: Output::new(stride),
            concealer: Concealer::new(stride),
            rate: None,
            cues: Cues::default(),
        })
    }

    /// With cues for the run.
    pub fn with(self, cues: Cues) -> Self {
        Self { cues, ..self }
    }

    /// What came of the cues, in words where something did not.
    pub fn cued(&self, counts: &Counts) -> Option<Trouble> {
        self.cues.trouble(counts.last)
    }

    /// Runs a programme to its end, or to the first refused frame; also where the input breaks off, what waits is
    /// given out.
    pub fn run(
        &mut self,
        programme: &mut dyn Programme,
        policy: Policy,
        listener: &mut dyn Listener,
    ) -> Result<(Counts, Option<Broken>), Trouble> {
        let (mut counts, mut frame) = (Counts::default(), Packet::default());
        let broken = loop {
            match programme.next(&mut frame) {
                Err(broken) => break Some(broken),
                Ok(None) => break None,
                Ok(Some(Ask::Flush)) => self.flush(listener)?,
                Ok(Some(Ask::Reset)) => {
                    self.renderer.reset();
                    self.concealer.reset();
                    self.rate = None;
                }
                Ok(Some(Ask::Frame)) => {
                    self.cues.call(counts.samples, &mut self.renderer);
                    self.frame(&frame, policy, &mut counts, listener)?;
                    if counts.stopped {
                        break None;
                    }
                }
            }
            listener.step(programme.part(), &counts);
        };
        self.flush(listener)?;
        Ok((counts, broken))
    }

    fn flush(&mut self, listener: &mut dyn Listener) -> Result<(), Trouble> {
        match self.renderer.flush(&mut self.out) {
            Some(rest) => listener.sound(self.rate.unwrap_or(0), &rest),
            None => Ok(()),
        }
    }

    fn frame(
        &mut self,
        frame: &Packet,
        policy: Policy,
        counts: &mut Counts,
        listener: &mut dyn Listener,
    ) -> Result<(), Trouble> {
        let rate = self.rate.unwrap_or(frame.rate);
        let (refusal, lost) = match self.push(frame, policy) {
            Ok((sound, refusal)) => {
                listener.sound(rate, &sound)?;
                self.rate = Some(rate);
                (refusal, false)
            }
            Err(refusal) => (Some(refusal), true),
        };
        let at = counts.seconds;
        counts.add(frame, refusal, lost);
        let Some(refusal) = refusal else {
            return Ok(());
        };
        counts.stopped = policy == Policy::Stop;
        listener.refused(&Refused {
            number: counts.frames,
            at,
            frame,
            refusal,
        })
    }

    /// The sound, and why it is not the frame's own; or why there is none.
    fn push(
        &mut self,
        frame: &Packet,
        policy: Policy,
    ) -> Result<(Rendered<'_>, Option<Refusal>), Refusal> {
        let beds = frame.beds();
        let frame = frame.frame(beds.as_deref())?;
        if policy == Policy::Stop {
            let sound = self.renderer.push(&frame, &mut self.out)?;
            return Ok((sound, None));
        }
        let by = &mut self.concealer;
        let outcome = self.renderer.push_or_conceal(&frame, &mut self.out, by)?;
        Ok((outcome.rendered, outcome.refusal))
    }
}

/// A new renderer, if library and tool are of one version.
pub fn renderer(setup: &Setup) -> Result<Renderer, Trouble> {
    let made = match &setup.table {
        None => Renderer::new(setup.layout),
        Some(table) => Renderer::with_table(setup.layout, table),
    };
    made.map_err(|e| match e {
        MakeError::Version { expected, found } => Trouble::Wrong(format!(
            "the library is version {found} and this tool is for {expected}: run tools/staticlib hall again"
        )),
        other => Trouble::Wrong(other.to_string()),
    })
}
