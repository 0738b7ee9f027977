//! The overview of the tool; the help of each command stands with it.

use crate::commands::COMMANDS;

const STATUS: &str = "\
Exit status: 0 all done; 1 something was refused or found wrong; 2 the command
line is wrong; 3 an I/O error, or a file that is not of its format.
";

/// The help of the whole tool.
pub fn overview() -> String {
    let mut text = String::from("usage: jurnadel COMMAND ..\n\nTrail plans, their records and shelves.\n\n");
    for command in &COMMANDS {
        text.push_str(&format!("  {:<9}{}\n", command.name, command.summary));
    }
    text.push_str("\njurnadel COMMAND --help tells more.\n\n");
    text.push_str(STATUS);
    text
}
