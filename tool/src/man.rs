//! The man page, made from the command line and its help.
use clap::Command;

pub fn page(mut command: Command) -> String {
    command.build();
    let name = command.get_name().to_string();
    let mut page = format!(".TH {} 1 \"\" \"{} {}\" \"User Commands\"\n", name.to_uppercase(), name, env!("CARGO_PKG_VERSION"));
    page += &format!(".SH NAME\n{} \\- {}\n", name, env!("CARGO_PKG_DESCRIPTION"));
    page += ".SH SYNOPSIS\n";
    for sub in command.get_subcommands_mut() {
        page += &format!(".B {}\n.br\n", escaped(sub.render_usage().to_string().trim_start_matches("Usage: ")));
    }
    page += &format!(".SH DESCRIPTION\n{}", filled(&command.get_about().map(ToString::to_string).unwrap_or_default()));
    page += &verbatim(&command.get_after_help().map(ToString::to_string).unwrap_or_default());
    page += ".SH SUBCOMMANDS\n";
    for sub in command.get_subcommands() {
        page += &format!(".SS {}\n", escaped(sub.get_name()));
        page += &of_subcommand(sub);
    }
    page
}

fn of_subcommand(sub: &Command) -> String {
    let mut text = filled(&sub.get_about().map(ToString::to_string).unwrap_or_default());
    for arg in sub.get_arguments() {
        let help = arg.get_help().map(ToString::to_string).unwrap_or_default();
        text += &format!(".TP\n.B {}\n{}", escaped(&arg.to_string()), filled(&help));
    }
    text + &verbatim(&sub.get_after_help().map(ToString::to_string).unwrap_or_default())
}

/// Text that may be filled.
fn filled(text: &str) -> String {
    text.lines().map(|line| format!("{}\n", escaped(line))).collect()
}

/// Text whose lines stay as they are, as those of a table.
fn verbatim(text: &str) -> String {
    if text.is_empty() {
        return String::new();
    }
    format!(".PP\n.nf\n{}.fi\n", filled(text))
}

fn escaped(line: &str) -> String {
    let line = line.replace('\\', "\\e").replace('-', "\\-");
    if line.starts_with('.') || line.starts_with('\'') {
        format!("\\&{}", line)
    } else {
        line
    }
}
