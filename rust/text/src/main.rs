//! The command line of the text form.

use ciztarmo_text::commands::{self, Asked, Done};
use ciztarmo_text::lines::whole;
use std::io::{Read, Write};
use std::path::{Path, PathBuf};
use std::process::ExitCode;

const USAGE: &str = "\
usage: text blocks FILE [-o OUT] [--unchecked]   text to blocks
       text show FILE [-o OUT] [--unchecked]     blocks to text
       text tree FILE                            a set's or layout's types as trees
       text lengths FILE                         the answers to the runs behind a set, in words
       text check FILE                           says nothing, or where FILE is wrong, or warns
       text layout FILE [-o OUT]                 the layout of a set, as bytes for a device
       text parameters FILE TYPE                 what a record of a type wants to be told
       text map FILE TYPE [NAME=NUMBER ..] [--run N] [--length N] [--svg] [-o OUT]
                                                 what lies where in a record
FILE - is standard input. --unchecked writes also what the proved reader refuses.
Texts and names are UTF-8. A message has FILE:LINE:COLUMN, and a column counts characters.
";

/// A message and the exit status: 1 if the input is wrong, 2 if the call is or a file can't be
/// read or written.
struct Failure {
    status: u8,
    message: String,
}

fn usage(message: impl Into<String>) -> Failure {
    Failure {
        status: 2,
        message: format!("text: {}\n{USAGE}", message.into()),
    }
}

fn main() -> ExitCode {
    let args: Vec<String> = match std::env::args_os()
        .skip(1)
        .map(|a| a.into_string())
        .collect()
    {
        Ok(args) => args,
        Err(_) => return told(usage("an argument is not UTF-8")),
    };
    let wants_help = matches!(
        args.first().map(String::as_str),
        Some("-h" | "--help" | "help")
    );
    let done = match wants_help {
        true => written("standard output", print(USAGE.as_bytes())),
        false => Call::read(&args).and_then(|call| call.run()),
    };
    match done {
        Ok(()) => ExitCode::SUCCESS,
        Err(failure) => told(failure),
    }
}

/// Whether something must stand behind an option.
fn wants_more(option: &str) -> bool {
    matches!(option, "-o" | "--run" | "--length")
}

/// A number as the text form writes it.
fn number(digits: &str) -> Result<u64, String> {
    match digits.is_empty() || !digits.bytes().all(|b| b.is_ascii_digit()) {
        true => Err(format!("`{digits}` is no number")),
        false => whole(digits),
    }
}

fn told(failure: Failure) -> ExitCode {
    eprintln!("{}", failure.message.trim_end());
    ExitCode::from(failure.status)
}

#[derive(Clone, Copy, PartialEq)]
enum Command {
    Blocks,
    Show,
    Tree,
    Lengths,
    Check,
    Layout,
    Parameters,
    Map,
}

impl Command {
    fn named(name: &str) -> Option<Command> {
        Some(match name {
            "blocks" => Command::Blocks,
            "show" => Command::Show,
            "tree" => Command::Tree,
            "lengths" => Command::Lengths,
            "check" => Command::Check,
            "layout" => Command::Layout,
            "parameters" => Command::Parameters,
            "map" => Command::Map,
            _ => return None,
        })
    }

    /// Whether the command takes an option.
    fn takes(self, option: &str) -> bool {
        let both_ways = matches!(self, Command::Blocks | Command::Show);
        match option {
            "-o" => both_ways || matches!(self, Command::Layout | Command::Map),
            "--unchecked" => both_ways,
            "--svg" | "--run" | "--length" => self == Command::Map,
            _ => false,
        }
    }

    fn takes_a_type(self) -> bool {
        matches!(self, Command::Parameters | Command::Map)
    }
}

struct Call {
    command: Command,
    file: String,
    /// The type that is asked for and how, of the commands that take one.
    asked: Asked,
    out: Option<PathBuf>,
    unchecked: bool,
}

impl Call {
    fn read(args: &[String]) -> Result<Call, Failure> {
        let (name, rest) = args.split_first().ok_or_else(|| usage("no command"))?;
        let command =
            Command::named(name).ok_or_else(|| usage(format!("there is no command {name}")))?;
        let mut call = Call {
            command,
            file: String::new(),
            asked: Asked::default(),
            out: None,
            unchecked: false,
        };
        let mut operands = Vec::new();
        let mut rest = rest.iter();
        while let Some(arg) = rest.next() {
            match arg.as_str() {
                "--" => operands.extend(rest.by_ref().cloned()),
                "-" => operands.push(arg.clone()),
                option if option.starts_with('-') => call.option(
                    name,
                    option,
                    wants_more(option).then(|| rest.next()).flatten(),
                )?,
                _ => operands.push(arg.clone()),
            }
        }
        call.operands(name, operands)?;
        Ok(call)
    }

    /// Takes an option, and what stands behind it if it needs that.
    fn option(&mut self, name: &str, option: &str, behind: Option<&String>) -> Result<(), Failure> {
        let again = match option {
            "-o" => self.out.is_some(),
            "--run" => self.asked.run.is_some(),
            "--length" => self.asked.length.is_some(),
            _ => false,
        };
        if again || !self.command.takes(option) {
            return Err(usage(format!("{name} does not take {option}")));
        }
        match option {
            "--unchecked" => self.unchecked = true,
            "--svg" => self.asked.svg = true,
            "-o" => {
                let path = behind.ok_or_else(|| usage("-o needs a file"))?;
                self.out = Some(PathBuf::from(path));
            }
            _ => {
                let digits = behind.ok_or_else(|| usage(format!("{option} needs a number")))?;
                let number = number(digits).map_err(|m| usage(format!("{option}: {m}")))?;
                match option {
                    "--run" => self.asked.run = Some(usize::try_from(number).unwrap_or(usize::MAX)),
                    _ => self.asked.length = Some(number),
                }
            }
        }
        Ok(())
    }

    /// A file, a type if the command takes one, and of a map values.
    fn operands(&mut self, name: &str, operands: Vec<String>) -> Result<(), Failure> {
        let mut operands = operands.into_iter();
        let typed = self.command.takes_a_type();
        let needs = match typed {
            true => format!("{name} needs a file and a type"),
            false => format!("{name} needs a file"),
        };
        self.file = operands.next().ok_or_else(|| usage(&needs))?;
        if typed {
            self.asked.name = operands.next().ok_or_else(|| usage(&needs))?;
        }
        for operand in operands {
            match self.command {
                Command::Map => self.value(&operand)?,
                _ if typed => {
                    return Err(usage(format!("{name} takes one file and one type")));
                }
                _ => return Err(usage(format!("{name} takes one file"))),
            }
        }
        match self.asked.run.is_some() && !self.asked.values.is_empty() {
            true => Err(usage("map takes --run or values, not both")),
            false => Ok(()),
        }
    }

    /// A value of a map: NAME=NUMBER. A name may have an equals sign in it, a number has none.
    fn value(&mut self, operand: &str) -> Result<(), Failure> {
        let Some((name, digits)) = operand.rsplit_once('=') else {
            return Err(usage(format!("{operand} where NAME=NUMBER must stand")));
        };
        let number = number(digits).map_err(|m| usage(format!("{operand}: {m}")))?;
        if self.asked.values.iter().any(|v| v.0 == name) {
            return Err(usage(format!("{operand}: {name} has a value already")));
        }
        self.asked.values.push((name.to_string(), number));
        Ok(())
    }

    fn run(&self) -> Result<(), Failure> {
        let (name, input) = self.input()?;
        let done = match self.command {
            Command::Blocks => commands::blocks(&name, &input, self.unchecked),
            Command::Show => commands::show(&name, &input, self.unchecked),
            Command::Tree => commands::tree(&name, &input),
            Command::Lengths => commands::lengths(&name, &input),
            Command::Check => commands::check(&name, &input),
            Command::Layout => commands::layout(&name, &input),
            Command::Parameters => commands::parameters(&name, &input, &self.asked.name),
            Command::Map => commands::map(&name, &input, &self.asked),
        };
        let Done { output, remarks } = done.map_err(|message| Failure { status: 1, message })?;
        for remark in remarks {
            eprintln!("{remark}");
        }
        match &self.out {
            None => written("standard output", print(&output)),
            Some(path) => write_whole(path, &output),
        }
    }

    /// The input and its name for messages.
    fn input(&self) -> Result<(String, Vec<u8>), Failure> {
        let mut input = Vec::new();
        let (name, read) = match self.file.as_str() {
            "-" => (
                "<stdin>",
                std::io::stdin().read_to_end(&mut input).map(|_| ()),
            ),
            file => (file, std::fs::read(file).map(|bytes| input = bytes)),
        };
        written(name, read)?;
        Ok((name.to_string(), input))
    }
}

fn written(name: &str, result: std::io::Result<()>) -> Result<(), Failure> {
    result.map_err(|e| Failure {
        status: 2,
        message: format!("{name}: {e}"),
    })
}

/// Writes to standard output. What is left in its buffer at the end would be lost without a word
/// if it can't be written, so it is flushed here.
fn print(output: &[u8]) -> std::io::Result<()> {
    let mut out = std::io::stdout().lock();
    out.write_all(output)?;
    out.flush()
}

/// Writes a file under a temporary name and renames it, so that it is whole or as it was.
fn write_whole(path: &Path, output: &[u8]) -> Result<(), Failure> {
    let shown = path.display().to_string();
    // A link is followed, and what is no file (a device, a folder) is not replaced.
    let target = match std::fs::canonicalize(path) {
        Ok(target) if target.is_file() => target,
        Ok(_) => {
            return Err(Failure {
                status: 2,
                message: format!("{shown}: this is no file that could be replaced"),
            })
        }
        Err(_) => path.to_path_buf(),
    };
    let mut name = target.file_name().unwrap_or_default().to_os_string();
    name.push(format!(".{}.part", std::process::id()));
    let part = target.with_file_name(name);
    let result = write_through(&part, output).and_then(|()| std::fs::rename(&part, &target));
    if result.is_err() {
        // What could be written is not left behind.
        let _ = std::fs::remove_file(&part);
    }
    written(&shown, result)
}

/// Writes a file and waits until it is kept, so that what is renamed is whole after a power cut too.
fn write_through(path: &Path, output: &[u8]) -> std::io::Result<()> {
    let mut file = std::fs::File::create(path)?;
    file.write_all(output)?;
    file.sync_all()
}
