// SPDX-License-Identifier: Apache-2.0
//! Why a command ends before its work is done, and with which exit code.
use std::io;

pub enum Trouble {
    /// 1: a frame was refused; what there is to say about it, if it has not been said.
    Refused(Option<String>),
    /// 2: input or arguments are wrong.
    Wrong(String),
    /// 3: reading or writing failed.
    Failed(String),
    /// The reader of standard output has what it wanted.
    Closed,
}

impl Trouble {
    pub fn code(&self) -> u8 {
        match self {
            Self::Closed => 0,
            Self::Refused(_) => 1,
            Self::Wrong(_) => 2,
            Self::Failed(_) => 3,
        }
    }

    pub fn message(&self) -> Option<&str> {
        match self {
            Self::Closed => None,
            Self::Refused(message) => message.as_deref(),
            Self::Wrong(message) | Self::Failed(message) => Some(message),
        }
    }

    /// A failed read or write of the file of this name.
    pub fn io(name: &str, error: &io::Error) -> Self {
        match error.kind() {
            io::ErrorKind::BrokenPipe => Self::Closed,
            _ => Self::Failed(format!("{name}: {}", sentence(error))),
        }
    }
}

/// What the system says, without its number.
pub fn sentence(error: &io::Error) -> String {
    let said = error.to_string();
    match said.find(" (os error") {
        Some(end) => said[..end].to_owned(),
        None => said,
    }
}
