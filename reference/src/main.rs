//! The reference program.
//!
//! * without arguments: the four lines of 01's worked example;
//! * `sheet`: srpsheet on standard input;
//! * `calls`: srpcalls on standard input;
//! * `records sheet`, `records calls`: the records of a text on standard input, as docs/TEXT.md
//!   tells, with its warnings said; with `quiet` they aren't, and with `long` a sheet may be longer
//!   than srpsheet reads;
//! * `index sheet`, `index calls`: the names of a text on standard input, and the line that each
//!   record was made of, as `Script::index` tells;
//! * `rule`: the rule that settings on standard input break, where they are refused;
//! * `refusals sheet TEXT`, `refusals calls TEXT`: copies what the program printed of a text from
//!   standard input, and tells on standard error the line of each refused call;
//! * `written`: the declarations of PDUs in hex on standard input, as `written` tells;
//! * `make sheet SEED`, `make calls SEED`, `make calls-batch FIRST COUNT`: generated inputs;
//! * `make sheets FIRST COUNT FOLDER`, `make scripts FIRST COUNT FOLDER`: the same as files, with
//!   what they print;
//! * `coverage [N]`: what the generated inputs of the seeds below N reach.

use std::io::{Read, Write};
use std::path::{Path, PathBuf};
use std::process::ExitCode;

use reference::coverage::Coverage;
use reference::refusals::Refusals;
use reference::script::{self, Program};
use reference::{calls, files, generator, settings, sheet, written};

const USAGE: &str = "\
usage: reference
       reference sheet
       reference calls
       reference records sheet|calls [quiet] [long]
       reference index sheet|calls
       reference rule
       reference refusals sheet|calls TEXT
       reference written
       reference make sheet SEED
       reference make calls SEED
       reference make calls-batch FIRST COUNT
       reference make sheets FIRST COUNT FOLDER
       reference make scripts FIRST COUNT FOLDER
       reference coverage [N]
";

/// What the arguments ask for.
enum Task {
    Example,
    Sheet,
    Calls,
    Records(Program, Options),
    Index(Program),
    Rule,
    Refusals(Program, PathBuf),
    Written,
    MakeSheet(u64),
    MakeCalls(u64),
    MakeCallsBatch(u64, u64),
    MakeSheets(u64, u64, PathBuf),
    MakeScripts(u64, u64, PathBuf),
    Coverage(u64),
}

/// How records are made of a text.
#[derive(Default)]
struct Options {
    quiet: bool,
    long: bool,
}

fn options(arguments: &[&str]) -> Option<Options> {
    let mut options = Options::default();
    for argument in arguments {
        match *argument {
            "quiet" => options.quiet = true,
            "long" => options.long = true,
            _ => return None,
        }
    }
    Some(options)
}

fn program(argument: &str) -> Option<Program> {
    match argument {
        "sheet" => Some(Program::Sheet),
        "calls" => Some(Program::Calls),
        _ => None,
    }
}

fn task(arguments: &[&str]) -> Option<Task> {
    let number = |argument: &str| argument.parse().ok();
    match arguments {
        [] => Some(Task::Example),
        ["sheet"] => Some(Task::Sheet),
        ["calls"] => Some(Task::Calls),
        ["records", kind, rest @ ..] => Some(Task::Records(program(kind)?, options(rest)?)),
        ["index", kind] => Some(Task::Index(program(kind)?)),
        ["rule"] => Some(Task::Rule),
        ["refusals", kind, text] => Some(Task::Refusals(program(kind)?, text.into())),
        ["written"] => Some(Task::Written),
        ["make", "sheet", seed] => Some(Task::MakeSheet(number(seed)?)),
        ["make", "calls", seed] => Some(Task::MakeCalls(number(seed)?)),
        ["make", "calls-batch", first, count] => {
            Some(Task::MakeCallsBatch(number(first)?, number(count)?))
        }
        ["make", "sheets", first, count, folder] => {
            Some(Task::MakeSheets(number(first)?, number(count)?, folder.into()))
        }
        ["make", "scripts", first, count, folder] => {
            Some(Task::MakeScripts(number(first)?, number(count)?, folder.into()))
        }
        ["coverage"] => Some(Task::Coverage(1_000)),
        ["coverage", seeds] => Some(Task::Coverage(number(seeds)?)),
        _ => None,
    }
}

fn standard_input() -> std::io::Result<Vec<u8>> {
    let mut input = Vec::new();
    std::io::stdin().read_to_end(&mut input)?;
    Ok(input)
}

/// The records of a text, with its warnings said.
fn records(octets: &[u8], program: Program, options: &Options) -> Result<Vec<u8>, String> {
    let script = script::read(&script::text(octets)?, program)?;
    if program == Program::Sheet && !options.long {
        script.too_long_for_a_sheet().map_or(Ok(()), Err)?;
    }
    for warning in script.warnings().iter().filter(|_| !options.quiet) {
        eprintln!("{warning}");
    }
    Ok(script.octets)
}

/// What else is shown of a text.
fn index(octets: &[u8], program: Program) -> Result<String, String> {
    Ok(script::read(&script::text(octets)?, program)?.index())
}

/// Says what is wrong with an input.
fn said(fault: &str) -> ExitCode {
    eprintln!("{fault}");
    ExitCode::from(2)
}

/// Copies what a program printed of a text, with the lines of refused calls said.
fn refusals(program: Program, text: &Path) -> std::io::Result<ExitCode> {
    let octets = std::fs::read(text)?;
    match script::text(&octets).and_then(|text| Refusals::of(&text, program)) {
        Ok(refusals) => {
            let (input, output) = (std::io::stdin(), std::io::stdout());
            refusals.tell(&mut input.lock(), &mut output.lock(), &mut std::io::stderr())?;
            Ok(ExitCode::SUCCESS)
        }
        Err(fault) => Ok(said(&fault)),
    }
}

fn run(task: Task) -> std::io::Result<ExitCode> {
    let mut code = ExitCode::SUCCESS;
    let output = match task {
        Task::Example => sheet::run(&sheet::worked_example()).into_bytes(),
        Task::Sheet => sheet::run(&standard_input()?).into_bytes(),
        Task::Calls => calls::run(&standard_input()?).into_bytes(),
        Task::Records(program, options) => match records(&standard_input()?, program, &options) {
            Ok(octets) => octets,
            Err(fault) => return Ok(said(&fault)),
        },
        Task::Index(program) => match index(&standard_input()?, program) {
            Ok(lines) => lines.into_bytes(),
            Err(fault) => return Ok(said(&fault)),
        },
        Task::Rule => settings::checked(&standard_input()?)
            .map_or_else(|rule| format!("{rule}\n"), |_| String::new())
            .into_bytes(),
        Task::Refusals(program, text) => return refusals(program, &text),
        Task::Written => match written::taken_apart(&String::from_utf8_lossy(&standard_input()?)) {
            Ok(lines) => lines.into_bytes(),
            Err(fault) => return Ok(said(&fault)),
        },
        Task::MakeSheet(seed) => generator::sheet(seed),
        Task::MakeCalls(seed) => generator::calls(seed).octets,
        Task::MakeCallsBatch(first, count) => generator::calls_batch(first, count),
        Task::MakeSheets(first, count, folder) => {
            files::sheets(first, count, &folder)?;
            Vec::new()
        }
        Task::MakeScripts(first, count, folder) => {
            files::scripts(first, count, &folder)?;
            Vec::new()
        }
        Task::Coverage(seeds) => {
            let (table, complete) = Coverage::of_seeds(seeds).table();
            if !complete {
                code = ExitCode::FAILURE;
            }
            table.into_bytes()
        }
    };
    let mut out = std::io::stdout().lock();
    out.write_all(&output)?;
    out.flush()?;
    Ok(code)
}

fn main() -> ExitCode {
    let arguments: Vec<String> = std::env::args().skip(1).collect();
    let arguments: Vec<&str> = arguments.iter().map(String::as_str).collect();
    let task = match task(&arguments) {
        Some(task) => task,
        None => {
            eprint!("{USAGE}");
            return ExitCode::from(2);
        }
    };
    match run(task) {
        Ok(code) => code,
        // who reads the output wants no more of it
        Err(error) if error.kind() == std::io::ErrorKind::BrokenPipe => ExitCode::from(141),
        Err(error) => {
            eprintln!("{error}");
            ExitCode::from(2)
        }
    }
}
