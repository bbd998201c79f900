// SPDX-License-Identifier: Apache-2.0
//! A text by its lines.
use crate::trouble::Trouble;
use std::io::{BufRead, BufReader, ErrorKind, Read};

/// The lines that say something, without what follows a #, each with its number from 1.
pub fn lines<'a>(
    from: impl Read + 'a,
    name: &'a str,
) -> impl Iterator<Item = Result<(usize, String), Trouble>> + 'a {
    let all = BufReader::new(from).lines().enumerate();
    let said = all.map(move |(k, line)| match line {
        Ok(line) => Ok((
            k + 1,
            line.split('#').next().unwrap_or("").trim().to_owned(),
        )),
        Err(e) if e.kind() == ErrorKind::InvalidData => {
            Err(Trouble::Wrong(format!("{name}:{}: not text", k + 1)))
        }
        Err(e) => Err(Trouble::io(name, &e)),
    });
    said.filter(|line| !matches!(line, Ok((_, text)) if text.is_empty()))
}
