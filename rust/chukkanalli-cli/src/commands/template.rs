//! `template`: an empty table, with each set in words.

use chukkanalli::tables::{self, Form, Labels};

use super::{game, Stop, DONE};
use crate::args::{Setting, Verb};
use crate::console::Console;
use crate::options::{Format, Options};

pub fn run(setting: &Setting, options: &Options, console: &mut Console) -> Result<u8, Stop> {
    let evaluator = game::evaluator_of_parts(Verb::Template, setting, None)?;
    let form = if options.format == Format::Csv { Form::Csv } else { Form::Text };
    console.print(&tables::template(&Labels::new(&evaluator), setting.d.value, form))?;
    Ok(DONE)
}
