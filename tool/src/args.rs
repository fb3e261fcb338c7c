//! The command line.
use crate::conversion::{Conversion, CONVERSIONS, TOLERANT_TO_CAMERA, TO_CAMERA};
use crate::failure::Failure;
use crate::help;
use crate::kinds::{named, KINDS};
use crate::man;
use crate::names::escaped;
use crate::session::{Options, Split};
use clap::builder::{PossibleValuesParser, ValueParser};
use clap::{value_parser, Arg, ArgAction, ArgMatches, Command};
use clap_complete::{generate, Shell};
use std::ffi::OsString;
use std::os::unix::ffi::OsStrExt;
use std::path::PathBuf;
use std::thread::available_parallelism;

pub const CHUNK: usize = 4096;
pub const MOST_THREADS: usize = 256;
pub const MOST_CHUNK: usize = 1_000_000;

pub enum Job {
    Convert(&'static Conversion, PathBuf, PathBuf),
    Verify(Vec<PathBuf>),
    Check(Vec<PathBuf>),
    Inspect(Vec<PathBuf>),
    Totals(Vec<PathBuf>),
    Demo,
}

impl Job {
    /// Its subcommand, with the option that asks for the tolerant way back.
    pub fn name(&self) -> &'static str {
        match self {
            Job::Convert(conversion, ..) => conversion.name,
            Job::Verify(_) => "verify",
            Job::Check(_) => "check",
            Job::Inspect(_) => "inspect",
            Job::Totals(_) => "totals",
            Job::Demo => "demo",
        }
    }
}

pub enum Request {
    Say(String),
    Do(Job, Options),
}

/// The whole command line, from which the help, the man page and the shells' completions are made too.
pub fn command() -> Command {
    let mut command = Command::new("ropeinstant")
        .version(env!("CARGO_PKG_VERSION"))
        .about(help::ABOUT)
        .after_help(help::general())
        .disable_help_flag(true)
        .disable_version_flag(true)
        .disable_help_subcommand(true)
        .override_usage("ropeinstant SUBCOMMAND ..")
        .subcommand_help_heading("Subcommands")
        .arg(help_flag())
        .arg(flag("version", "Say the version").short('V'));
    for conversion in CONVERSIONS {
        command = command.subcommand(of_conversion(conversion));
    }
    command
        .subcommand(looking("verify", help::VERIFY, "IN", "Pixel records; '-' is standard input").args(verifying()).arg(kind()))
        .subcommand(looking("check", help::CHECK, "ACES", "ACES records; '-' is standard input").arg(kind()))
        .subcommand(looking("inspect", help::INSPECT, "FILE", "Records of any kind; '-' is standard input").arg(kind()))
        .subcommand(looking("totals", help::TOTALS, "IN", "Pixel records; '-' is standard input").arg(kind()))
        .subcommand(sub("demo", help::DEMO).args(splits()))
        .subcommand(sub("help", "Show the help, or that of a subcommand").arg(Arg::new("SUBCOMMAND")))
        .subcommand(sub("completions", "Print a shell's completions").arg(shell()))
        .subcommand(sub("man", "Print the man page"))
}

fn sub(name: &'static str, about: &'static str) -> Command {
    Command::new(name).about(about).disable_help_flag(true).disable_version_flag(true).arg(help_flag())
}

fn of_conversion(conversion: &'static Conversion) -> Command {
    sub(conversion.name, conversion.about)
        .override_usage(format!("ropeinstant {} [OPTIONS] IN OUT", conversion.name))
        .after_help(help::of_conversion(conversion))
        .arg(path("IN").help("A file, or '-' for standard input"))
        .arg(path("OUT").help("A file; it appears whole or not at all"))
        .args(splits())
        .args(saying())
        .arg(flag("no-clobber", "Replace no file: OUT must not be there"))
        .arg(flag("manifest", "Write OUT.manifest: kind, records, settings, SHA-256"))
        .args(holding())
        .arg(kind())
        .args((conversion.name == TO_CAMERA.name).then(|| flag("tolerant", help::TOLERANT)))
}

fn looking(name: &'static str, about: &'static str, value: &'static str, help: &'static str) -> Command {
    sub(name, about)
        .override_usage(format!("ropeinstant {} [OPTIONS] {}..", name, value))
        .after_help(help::of_looking(name))
        .arg(path(value).help(help).num_args(1..))
        .args(splits())
        .args(saying())
        .args(holding())
}

fn path(name: &'static str) -> Arg {
    Arg::new(name).required_unless_present("help").value_parser(ValueParser::path_buf()).allow_hyphen_values(false)
}

fn flag(name: &'static str, help: &'static str) -> Arg {
    Arg::new(name).long(name).help(help).action(ArgAction::SetTrue)
}

fn help_flag() -> Arg {
    flag("help", "Show this help").short('h')
}

fn splits() -> [Arg; 2] {
    let number =
        |name, value, most: usize| Arg::new(name).long(name).value_name(value).value_parser(value_parser!(u64).range(1..=most as u64));
    [
        number("threads", "N", MOST_THREADS).help("Threads, 1 to 256; else one for each core"),
        number("chunk", "RECORDS", MOST_CHUNK).help("Records that a thread takes at once, 1 to 1000000;\nelse 4096"),
    ]
}

fn saying() -> [Arg; 2] {
    [flag("quiet", "Say nothing but refusals and failures").short('q'), flag("json", "Answer as JSON, an object a line")]
}

fn holding() -> [Arg; 2] {
    [flag("allow-empty", "Take an empty pipe for an input of 0 records"), flag("no-manifest", "Leave the manifest of an input aside")]
}

fn verifying() -> [Arg; 2] {
    [flag("pair", help::PAIR), flag("scene", help::BY_SCENE).conflicts_with("pair")]
}

fn kind() -> Arg {
    let values = PossibleValuesParser::new(KINDS.map(|kind| kind.name));
    Arg::new("kind")
        .long("kind")
        .value_name("KIND")
        .value_parser(values)
        .ignore_case(true)
        .hide_possible_values(true)
        .help("What the input holds, whatever its name says:\npixel, scene, aces or half")
}

fn shell() -> Arg {
    Arg::new("SHELL").required_unless_present("help").value_parser(value_parser!(Shell)).help("The shell")
}

/// Reads a command line, whose first word is the program's name.
pub fn parse(words: Vec<OsString>) -> Result<Request, (String, Failure)> {
    let about = subcommand_in(&words);
    let answer = match command().try_get_matches_from(&words) {
        Ok(matches) => request(&matches),
        Err(error) => Err(Failure::usage(plain(&error.to_string()))),
    };
    answer.map_err(|failure| (about, failure))
}

/// The subcommand that a command line names, for the help to point to.
fn subcommand_in(words: &[OsString]) -> String {
    let first = words.iter().skip(1).find(|word| !word.as_bytes().starts_with(b"-"));
    let known = first.and_then(|word| {
        command().get_subcommands().map(|known| known.get_name().to_string()).find(|known| word.as_os_str() == known.as_str())
    });
    known.filter(|known| known != "help").unwrap_or_default()
}

/// clap's words for a mistake: without its first word and its pointer to the help, and with nothing that moves a terminal's cursor.
fn plain(words: &str) -> String {
    let kept = words.strip_prefix("error: ").unwrap_or(words);
    let kept = kept.split("\n\nFor more information").next().unwrap_or(kept).trim_end();
    let lines = kept.lines().filter(|line| !line.is_empty() && !line.starts_with("  If you "));
    lines.map(|line| escaped(line.as_bytes())).collect::<Vec<_>>().join("\n")
}

fn request(matches: &ArgMatches) -> Result<Request, Failure> {
    let (top_help, version) = (matches.get_flag("help"), matches.get_flag("version"));
    let (name, inner) = match matches.subcommand() {
        Some(_) if top_help || version => {
            return Err(Failure::usage("a subcommand behind --help or --version; its help is 'ropeinstant SUBCOMMAND --help'"))
        }
        Some(found) => found,
        None if version => return Ok(Request::Say(concat!("ropeinstant ", env!("CARGO_PKG_VERSION"), "\n").to_string())),
        None if top_help => return help_of(None),
        None => return Err(Failure::usage("no subcommand")),
    };
    if inner.get_flag("help") {
        return help_of(Some(name));
    }
    match name {
        "help" => help_of(inner.get_one::<String>("SUBCOMMAND").map(String::as_str)),
        "man" => Ok(Request::Say(man::page(command()))),
        "completions" => Ok(Request::Say(completions(*inner.get_one::<Shell>("SHELL").expect("a shell")))),
        _ => Ok(Request::Do(job(name, inner)?, options(inner))),
    }
}

fn job(name: &str, matches: &ArgMatches) -> Result<Job, Failure> {
    let files = |value: &str| matches.get_many::<PathBuf>(value).into_iter().flatten().cloned().collect::<Vec<_>>();
    Ok(match name {
        "verify" => Job::Verify(files("IN")),
        "check" => Job::Check(files("ACES")),
        "inspect" => Job::Inspect(files("FILE")),
        "totals" => Job::Totals(files("IN")),
        "demo" => Job::Demo,
        _ => {
            let conversion = CONVERSIONS.into_iter().find(|conversion| conversion.name == name).expect("a conversion");
            let conversion = if said(matches, "tolerant") { &TOLERANT_TO_CAMERA } else { conversion };
            Job::Convert(conversion, files("IN").remove(0), files("OUT").remove(0))
        }
    })
}

/// Whether an option is said, where the subcommand has it.
fn said(matches: &ArgMatches, name: &str) -> bool {
    matches!(matches.try_get_one::<bool>(name), Ok(Some(true)))
}

fn options(matches: &ArgMatches) -> Options {
    let said = |name: &str| said(matches, name);
    let number = |name: &str| matches.get_one::<u64>(name).map(|number| *number as usize);
    let cores = || available_parallelism().map_or(1, usize::from).min(MOST_THREADS);
    Options {
        split: Split { threads: number("threads").unwrap_or_else(cores), chunk: number("chunk").unwrap_or(CHUNK) },
        quiet: said("quiet"),
        json: said("json"),
        allow_empty: said("allow-empty"),
        no_clobber: said("no-clobber"),
        manifest: said("manifest"),
        no_manifest: said("no-manifest"),
        kind: matches.try_get_one::<String>("kind").ok().flatten().and_then(|name| named(name)),
        pair: said("pair"),
        scene: said("scene"),
    }
}

fn help_of(name: Option<&str>) -> Result<Request, Failure> {
    let mut command = command();
    command.build();
    let shown = match name {
        None => Some(&mut command),
        Some(name) => command.find_subcommand_mut(name),
    };
    match shown {
        Some(shown) => Ok(Request::Say(shown.render_help().to_string())),
        None => Err(Failure::usage(format!("there is no subcommand '{}'", escaped(name.unwrap_or_default().as_bytes())))),
    }
}

fn completions(shell: Shell) -> String {
    let mut text = Vec::new();
    generate(shell, &mut command(), "ropeinstant", &mut text);
    String::from_utf8_lossy(&text).into_owned()
}

#[cfg(test)]
mod tests {
    use super::*;

    fn parsed(line: &str) -> Result<Request, (String, Failure)> {
        parse(["ropeinstant"].into_iter().chain(line.split_whitespace()).map(OsString::from).collect())
    }

    fn refused(line: &str) -> (String, String) {
        match parsed(line) {
            Err((command, failure)) => (command, failure.to_string()),
            Ok(_) => panic!("{} is accepted", line),
        }
    }

    #[test]
    fn the_definition_is_sound() {
        command().debug_assert();
    }

    #[test]
    fn options_stand_anywhere() {
        for line in ["to-aces --threads 3 a --chunk=7 b", "to-aces --threads=3 --chunk 7 -- a b"] {
            match parsed(line) {
                Ok(Request::Do(Job::Convert(conversion, from, to), options)) => {
                    assert_eq!((conversion.name, from, to), ("to-aces", PathBuf::from("a"), PathBuf::from("b")));
                    assert_eq!(options.split, Split { threads: 3, chunk: 7 });
                }
                _ => panic!("{}", line),
            }
        }
    }

    #[test]
    fn the_tolerant_way_back_is_asked_for_by_an_option() {
        for (line, name) in [("to-camera a b", "to-camera"), ("to-camera a b --tolerant", "to-camera --tolerant")] {
            assert!(matches!(parsed(line), Ok(Request::Do(job @ Job::Convert(..), _)) if job.name() == name), "{}", line);
        }
        for line in ["to-aces --tolerant a b", "graded-to-camera --tolerant a b", "check --tolerant a"] {
            assert!(refused(line).1.contains("'--tolerant'"), "{}", line);
        }
    }

    #[test]
    fn wrong_usage_names_the_subcommand_whose_help_to_read() {
        assert_eq!(refused("").1, "ropeinstant: no subcommand");
        assert!(refused("to-acse a b").1.contains("'to-acse'"));
        for line in [
            "to-aces a",
            "to-aces a b c",
            "to-aces --fast a b",
            "to-aces a b --threads 0",
            "to-aces a b --chunk 1000001",
            "to-aces --help a b c",
        ] {
            assert_eq!(refused(line).0, "to-aces", "{}", line);
        }
        for line in ["totals", "totals --scene a", "totals a --manifest"] {
            assert_eq!(refused(line).0, "totals", "{}", line);
        }
        for line in ["--help more", "--version more", "help to-aces more", "demo more", "help nothing", "man more", "--help to-aces"] {
            refused(line);
        }
    }

    #[test]
    fn completions_and_man_page() {
        for word in ["no-clobber", "tolerant", "totals"] {
            assert!([Shell::Bash, Shell::Zsh, Shell::Fish].iter().all(|shell| completions(*shell).contains(word)));
        }
        let page = man::page(command());
        assert!(page.contains(".SS to\\-camera\n") && page.contains(".B \\-\\-tolerant\n") && page.contains(".SS totals\n"));
    }
}
