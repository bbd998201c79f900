// SPDX-License-Identifier: Apache-2.0
//! `table`, and `--table`: where a hall's speakers hang.
use crate::arguments::Hall;
use crate::files;
use crate::setup::Setup;
use crate::table;
use crate::trouble::Trouble;
use std::ffi::OsString;

/// The hall that is asked for, where these files are written.
pub fn setup(hall: &Hall, written: &[&OsString]) -> Result<Setup, Trouble> {
    for to in written {
        let table = hall.table.as_ref();
        table.map_or(Ok(()), |table| files::apart(table, to))?;
    }
    read(hall)
}

fn read(hall: &Hall) -> Result<Setup, Trouble> {
    let table = hall.table.as_deref().map(table::open).transpose()?;
    let layout = hall.layout;
    Ok(Setup { layout, table })
}

/// The table of a hall as text.
pub fn told(hall: &Hall) -> Result<String, Trouble> {
    read(hall).map(|setup| table::text(&setup))
}
