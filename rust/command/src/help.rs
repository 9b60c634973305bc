//! What the command says of itself.

use crate::arguments::Command;
use crate::sheets;

const ALL: &str = "\
usage: vutaroi SUBCOMMAND [OPTION..] [FILE..]

  strokes    HP-GL in, a line for each stroke and each refused byte out
  csv        the same as a table
  json       the same as JSON
  redraw     lines of strokes in, HP-GL out

  --help     this text; after a subcommand, its own
  --version  the version

Status: 0 done, 1 a line that redraw cannot write, 2 wrong words, 3 an input or the output failed.
";

const STROKES: &str = "\
usage: vutaroi strokes [--sheet NAME | --limits X0 Y0 X1 Y1] [-o FILE] [FILE..]

Reads HP-GL and prints a line for each stroke, pen x0 y0 x1 y1, and for each refused byte, E number byte;
replies stand among them. Each file is a drawing of its own.

";

const CSV: &str = "\
usage: vutaroi csv [--sheet NAME | --limits X0 Y0 X1 Y1] [-o FILE] [FILE..]

Reads HP-GL and writes a table, file,kind,pen,x0,y0,x1,y1,number,byte, with a row for each stroke and each
refused byte (kind is stroke or refusal); replies are left out. Each file is a drawing of its own.

";

const JSON: &str = "\
usage: vutaroi json [--sheet NAME | --limits X0 Y0 X1 Y1] [-o FILE] [FILE..]

Reads HP-GL and writes a list with an object for each file: file, limits, marks, bytes. A mark is a stroke,
{pen, x0, y0, x1, y1}, or a refused byte, {number, byte}; replies are left out.

";

const REDRAW: &str = "\
usage: vutaroi redraw [-o FILE] [FILE..]

Reads lines as strokes prints them and writes one drawing in HP-GL that paints just these strokes, those of
all files. Lines of refusals and replies are passed over, and counted on standard error. Any other line, or a
stroke that cannot be written, is told with its number; then nothing is written, and the status is 1.

  FILE                   lines of strokes; without it, or for -, standard input is read
";

const OUTPUT: &str = "  -o FILE                write there, and not to standard output\n";

/// What the command or a subcommand does.
pub fn text(command: Option<Command>) -> String {
    match command {
        None => ALL.into(),
        Some(Command::Strokes) => format!("{STROKES}{}{OUTPUT}", drawings()),
        Some(Command::Csv) => format!("{CSV}{}{OUTPUT}", drawings()),
        Some(Command::Json) => format!("{JSON}{}{OUTPUT}", drawings()),
        Some(Command::Redraw) => format!("{REDRAW}{OUTPUT}"),
    }
}

/// The words of every subcommand that reads drawings.
fn drawings() -> String {
    let [left, bottom, right, top] = sheets::DEFAULT;
    let names = sheets::names();
    format!(
        "  FILE                   HP-GL; without it, or for -, standard input is read
  --limits X0 Y0 X1 Y1   hard limits in units, each -32768 to 32767; without them {left} {bottom} {right} {top}
  --sheet NAME           the hard limits of a sheet by its name: {names}
"
    )
}

/// The versions of the command and of the library in it.
pub fn version() -> String {
    let library = vutaroi::version();
    let (major, minor, patch) = (library / 10000, library / 100 % 100, library % 100);
    format!("vutaroi {} (library {major}.{minor}.{patch})\n", env!("CARGO_PKG_VERSION"))
}
