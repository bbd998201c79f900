// SPDX-License-Identifier: Apache-2.0
//! `hex`: what `hallrender` prints of the same input.
use crate::files::{self, Out};
use crate::hall::renderer;
use crate::programme::{Ask, Limits, Packet, Programme, Reader};
use crate::setup::Setup;
use crate::trouble::Trouble;
use std::ffi::OsString;
use std::fmt::Write;
use voqlisna::{Output, Refusal, Rendered, Renderer, Stride};

/// "Its stride is 256"
const STRIDE: Option<Stride> = Stride::new(256);

pub fn hex(from: &OsString) -> Result<(), Trouble> {
    let (input, length) = files::open(from)?;
    let mut programme = Reader::new(input, Limits::HALLRENDER, length);
    let mut hall = Printer {
        renderer: renderer(&Setup::BUILT_IN)?,
        to: Output::new(STRIDE.unwrap_or(Stride::MAX)),
        out: Out::standard(),
    };
    let mut frame = Packet::default();
    let end = loop {
        match programme.next(&mut frame) {
            Ok(Some(ask)) => hall.answer(ask, &frame)?,
            Ok(None) => break Ok(()),
            Err(broken) => {
                hall.out.line("bad record")?;
                break Err(broken.trouble(&files::name_in(from)));
            }
        }
    };
    hall.out.close()?;
    end
}

struct Printer {
    renderer: Renderer,
    to: Output,
    out: Out,
}

impl Printer {
    fn answer(&mut self, ask: Ask, frame: &Packet) -> Result<(), Trouble> {
        let text = match ask {
            Ask::Reset => {
                self.renderer.reset();
                "reset\n".to_owned()
            }
            Ask::Flush => match self.renderer.flush(&mut self.to) {
                Some(rest) => ready(&rest),
                None => "none\n".to_owned(),
            },
            Ask::Frame => {
                let beds = frame.beds();
                let frame = frame.frame(beds.as_deref());
                match frame.and_then(|f| self.renderer.push(&f, &mut self.to)) {
                    Ok(sound) => ready(&sound),
                    Err(refusal) => refused(refusal),
                }
            }
        };
        self.out.put(text.as_bytes())
    }
}

fn refused(refusal: Refusal) -> String {
    let (first, second) = refusal.counts();
    format!("refused {} {first} {second}\n", refusal.number())
}

/// "`ready N` and N lines of twelve 8-digit lower-case hexadecimal words"
fn ready(sound: &Rendered<'_>) -> String {
    let mut text = format!("ready {}\n", sound.ready());
    for i in 0..sound.ready() {
        for (k, (_, channel)) in sound.channels().enumerate() {
            let space = if k == 0 { "" } else { " " };
            let _ = write!(text, "{space}{:08x}", channel[i].to_bits());
        }
        text.push('\n');
    }
    text
}
