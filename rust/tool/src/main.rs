//! The office's tool: `dulgaverk COMMAND ...`.

use std::ffi::OsString;
use std::io::{self, BufWriter, Write};
use std::process::ExitCode;
use tool::command::{tell, usage, Command, Ended, Failure, YES};
use tool::COMMANDS;

const ABOUT: &str = "\
Verdicts and guards come from the verified library, a guard's words too, in which only the registers' names are put in for r0,
r1 and so on, and [true] or [false] behind parts without registers. All other words are tested, not proved.
status: 0 accepted or true, 1 refused or false, 2 used wrongly, or what cannot be read or written";

fn main() -> ExitCode {
    let arguments: Vec<OsString> = std::env::args_os().skip(1).collect();
    let name = arguments.first().map(|name| name.to_string_lossy());
    let name = name.as_deref();
    let command = COMMANDS.iter().find(|command| Some(command.name) == name);
    let rest = arguments.get(1..).unwrap_or(&[]);
    let mut out = BufWriter::new(io::stdout().lock());
    let ended = match (command, name) {
        (Some(command), _) if rest.iter().any(is_help) => help(command, &mut out),
        (Some(command), _) => (command.run)(rest, &mut out),
        (None, Some("--help" | "-h" | "help")) => overview(&mut out),
        (None, None) => Err(usage("a command is missing")),
        (None, Some(name)) => Err(usage(&format!("no such command: \"{name}\""))),
    };
    // What is not written does not count.
    let ended = ended.and_then(|status| {
        out.flush()?;
        Ok(status)
    });
    match ended {
        Ok(status) => return status.into(),
        Err(Failure::Gone) => {}
        Err(Failure::Message(message)) => tell(&message),
        Err(Failure::Usage(message)) => {
            tell(&message);
            let lines = command.map_or("usage: dulgaverk COMMAND ...", |command| {
                command.help.split("\n\n").next().unwrap_or("")
            });
            let name = command.map_or(String::new(), |command| format!("{} ", command.name));
            let _ = writeln!(io::stderr(), "{lines}\ntry: dulgaverk {name}--help");
        }
    }
    2.into()
}

fn is_help(argument: &OsString) -> bool {
    argument == "--help" || argument == "-h"
}

fn help(command: &Command, out: &mut dyn Write) -> Ended {
    writeln!(out, "{}\n\n{ABOUT}", command.help)?;
    Ok(YES)
}

fn overview(out: &mut dyn Write) -> Ended {
    writeln!(out, "The office's tool for stages of pump-station controllers.\n\nusage: dulgaverk COMMAND ...\n")?;
    for command in &COMMANDS {
        writeln!(out, "  {:<8} {}", command.name, command.what)?;
    }
    writeln!(out, "\ndulgaverk COMMAND --help says more.\n{ABOUT}")?;
    Ok(YES)
}
