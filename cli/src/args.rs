//! The arguments.

use clap::{Parser, Subcommand, ValueEnum};
use std::path::PathBuf;

const EXAMPLES: &str = "\
Examples:
  rafterclary check samples/depth-accident.tla        accepted or refused, and why
  rafterclary check samples/*.bin                     one line for each file, reasons on standard error
  rafterclary check < samples/channel.bin             a tagged file from a pipe
  rafterclary list samples/channel.tla --names        all definitions with their cards
  rafterclary list samples/channel.bin --json         the same for a script
  rafterclary card samples/channel.tla 0              a card as a table
  rafterclary card samples/winch.tla Ready slack=2    and the level that it gives
  rafterclary level samples/depth-lawful.tla Panel \"draghead' + p\" p=1
  rafterclary alike samples/channel.bin 0 7           whether two definitions have one card
  rafterclary body samples/channel.bin 7              the bytes that hold a definition's body
  rafterclary expand samples/depth-lawful.tla Panel 'Head!TooDeep(p)' --params p
  rafterclary show samples/channel.bin                readable modules
  rafterclary explain 14                              what refusal 14 means
  rafterclary convert samples/channel.tla -o channel.bin

The samples are in the checkout. A FILE is a tagged file; if its name ends in .tla it is text in
the readable notation and is converted first. `-` is standard input. `--as` overrides the ending.

Exit status: 0 accepted or answered, 1 refused, 2 misuse (bad arguments, a file or an expression
that cannot be read). With many files the worst counts.";

const CARD_EXAMPLES: &str = "\
Examples:
  rafterclary card samples/channel.tla 0
  rafterclary card samples/winch.tla Winch:Ready
  rafterclary card samples/winch.tla 'Port!Ready' slack=2 brake=temporal
  rafterclary card samples/winch.tla 1 1 2 1 1 3 2

A card says what level a definition has at any levels of its parameters: 4 if a level is not taken,
or if two parameters that clash are at 2 and at 3; else the highest of the level with all at 0 and
the levels of the parameters that weigh.

Exit status: 0 answered, 1 refused, 2 misuse.";

const LEVEL_EXAMPLES: &str = "\
Examples:
  rafterclary level samples/depth-lawful.tla Panel 'Head!Sink'
  rafterclary level samples/trial-levels.tla Trial \"G(p, q)\" p=state q=temporal
  rafterclary level samples/example.bin 1 \"n3(p0)\" 2
  rafterclary level samples/example.bin 1 --hex \"02 0003 01 02 0002 00\"

The reply is 0 constant, 1 state, 2 transition, 3 temporal or 4 not level-correct; 4 is an
ordinary reply, and a note on standard error says why. Names without a spelling are n1, n2 and
so on.

Exit status: 0 answered, 1 refused, 2 misuse.";

const ALIKE_EXAMPLES: &str = "\
Examples:
  rafterclary alike samples/depth-lawful.tla Depth:Sink 'Head!Sink'
  rafterclary alike samples/channel.bin 0 7

Exit status: 0 answered, alike or not; 1 refused, 2 misuse.";

const BODY_EXAMPLES: &str = "\
Examples:
  rafterclary body samples/depth-lawful.tla 'Head!Sink'
  rafterclary body --json samples/channel.bin 50

Exit status: 0 answered, 1 refused, 2 misuse.";

const EXPAND_EXAMPLES: &str = "\
Examples:
  rafterclary expand samples/depth-lawful.tla Panel 'Head!Sink'
  rafterclary expand samples/trial-levels.tla Trial \"G(p, F(q'))\" --params p,q
  rafterclary expand samples/example.bin 1 \"n3(p0)\" --params p0
  rafterclary expand samples/example.bin 1 --hex \"02 0003 01 02 0002 00\"

The expansion is printed in the readable notation, and below it the number of its bytes. What an
operator drops is gone. An expansion of more than 65,535 bytes is refused by cause 18. Names without
a spelling are n1, n2 and so on.

Exit status: 0 answered, level-correct or not; 1 refused, 2 misuse.";

const CONVERT_EXAMPLES: &str = "\
Examples:
  rafterclary convert samples/channel.tla -o channel.bin
  rafterclary convert samples/channel.bin

A tagged file has no spellings: in its text names are n1, n2 and so on.

Exit status: 0 converted, 2 misuse. A file is converted whether it is lawful or not.";

/// The proved level checker for TLA+ modules.
#[derive(Parser)]
#[command(name = "rafterclary", version, about, after_help = EXAMPLES)]
pub struct Args {
    /// Print JSON: one object on a line for each file
    #[arg(long, global = true)]
    pub json: bool,

    /// What the files are, whatever their names end in
    #[arg(long = "as", global = true, value_enum, value_name = "FORM")]
    pub form: Option<Form>,

    /// The text that a tagged file was converted from: names and places are then the text's
    #[arg(long, global = true, value_name = "TEXT")]
    pub source: Option<PathBuf>,

    /// When to colour what is written for people
    #[arg(
        long,
        global = true,
        value_enum,
        value_name = "WHEN",
        default_value = "auto"
    )]
    pub color: Color,

    #[command(subcommand)]
    pub command: Command,
}

#[derive(Clone, Copy, Debug, PartialEq, Eq, ValueEnum)]
pub enum Form {
    /// Tagged bytes, as the checker reads them
    Tagged,
    /// The readable notation
    Text,
}

#[derive(Clone, Copy, Debug, PartialEq, Eq, ValueEnum)]
pub enum Color {
    /// On a terminal
    Auto,
    Always,
    Never,
}

#[derive(Subcommand)]
pub enum Command {
    /// Check files: one line each, and for a refusal the place in the readable source
    Check {
        /// Leave out the place and the reasons
        #[arg(short, long)]
        quiet: bool,
        /// Files; standard input if there are none
        #[arg(value_name = "FILE")]
        files: Vec<PathBuf>,
    },
    /// List all definitions with their cards
    List {
        /// Write names instead of the listing program's numbers, and cards in words
        #[arg(short, long)]
        names: bool,
        /// Files; standard input if there are none
        #[arg(value_name = "FILE")]
        files: Vec<PathBuf>,
    },
    /// Draw the level card of one definition, and read it at given levels
    #[command(after_help = CARD_EXAMPLES)]
    Card {
        /// A tagged file, or text if its name ends in .tla; `-` is standard input
        file: PathBuf,
        /// Its number, or NAME or INSTANCE!NAME, with MODULE: before it where several have the name
        definition: String,
        /// Levels to read it at: NAME=LEVEL, or LEVEL alone for the parameter in its place; those
        /// that are not given are at 0
        #[arg(value_name = "LEVEL")]
        levels: Vec<String>,
    },
    /// Tell the level of an expression at the end of a module
    #[command(after_help = LEVEL_EXAMPLES)]
    Level {
        /// A tagged file, or text if its name ends in .tla; `-` is standard input
        file: PathBuf,
        /// The module's name, or its number
        module: String,
        /// In the readable notation, over the names of the module and of the parameters
        expression: String,
        /// A level for each parameter: NAME=LEVEL, or LEVEL alone for p0, p1 and so on; 8 at most
        #[arg(value_name = "LEVEL")]
        levels: Vec<String>,
        /// The expression is given as bytes in hexadecimal
        #[arg(long)]
        hex: bool,
    },
    /// Tell whether two definitions are alike: as many parameters, and the same card
    #[command(after_help = ALIKE_EXAMPLES)]
    Alike {
        /// A tagged file, or text if its name ends in .tla; `-` is standard input
        file: PathBuf,
        /// Number or name, as of `card`
        first: String,
        /// Number or name, as of `card`
        second: String,
    },
    /// Print the part of the file that holds a definition's body, for a brought one the original's
    #[command(after_help = BODY_EXAMPLES)]
    Body {
        /// A tagged file, or text if its name ends in .tla; `-` is standard input
        file: PathBuf,
        /// Number or name, as of `card`
        definition: String,
    },
    /// Expand an expression at the end of a module: no defined name is left in it
    #[command(after_help = EXPAND_EXAMPLES)]
    Expand {
        /// A tagged file, or text if its name ends in .tla; `-` is standard input
        file: PathBuf,
        /// The module's name, or its number
        module: String,
        /// In the readable notation, over the names of the module and of the parameters
        expression: String,
        /// The names of its parameters, 8 at most, with commas between them
        #[arg(long, value_name = "NAMES", value_delimiter = ',')]
        params: Vec<String>,
        /// The expression is given as bytes in hexadecimal
        #[arg(long)]
        hex: bool,
    },
    /// Show a file as readable modules, with field numbers and offsets
    Show {
        /// A tagged file, or text if its name ends in .tla; `-` is standard input
        file: PathBuf,
    },
    /// Tell what a refusal means, with the smallest file that shows it
    Explain {
        /// The number of the refusal: 1 to 14, 16 to 18 or 21 (15 is no longer used)
        #[arg(value_parser = clap::value_parser!(u32).range(1..=21))]
        number: u32,
    },
    /// Convert text to a tagged file, and a tagged file to text
    #[command(after_help = CONVERT_EXAMPLES)]
    Convert {
        /// A tagged file, or text if its name ends in .tla; `-` is standard input
        file: PathBuf,
        /// Where to write; standard output if it is not given
        #[arg(short, long, value_name = "FILE")]
        output: Option<PathBuf>,
    },
}
