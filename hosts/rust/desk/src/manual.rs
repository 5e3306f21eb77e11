//! The manual page, made from the words of `--help`.
//!
//! By hand: Debian 12 has no package of `clap_mangen`. What clap knows of the commands is walked over, so nothing is said twice.

use clap::{Arg, Command};

/// The page as man reads it.
pub fn page(tool: &mut Command) -> String {
    tool.build();
    let mut page = format!(
        ".TH AMSULFEZD 1 \"\" \"amsulfezd {}\" \"User Commands\"\n.SH NAME\namsulfezd \\- {}\n.SH SYNOPSIS\n.B amsulfezd\n\
         .I command\n[options]\n.br\n.B amsulfezd\n.I command\n.B \\-\\-help\n.br\n.B amsulfezd \\-\\-help\n|\n\
         .B \\-\\-version\n.SH COMMANDS\n",
        env!("CARGO_PKG_VERSION"),
        plain(&tool.get_about().map(ToString::to_string).unwrap_or_default())
    );
    for command in tool.get_subcommands() {
        let about = command.get_long_about().or_else(|| command.get_about());
        page.push_str(&format!(
            ".SS {}\n{}\n",
            plain(&usage(command)),
            plain(&about.map(ToString::to_string).unwrap_or_default())
        ));
        for arg in command.get_arguments().filter(|arg| !is_help(arg)) {
            page.push_str(&format!(
                ".TP\n.B {}\n{}\n",
                plain(&name(arg)),
                plain(&help(arg))
            ));
        }
        if let Some(after) = command.get_after_help() {
            let mut lines: Vec<String> = after.to_string().lines().map(plain).collect();
            let heading = lines.remove(0);
            page.push_str(&format!(
                ".PP\n{}\n.nf\n{}\n.fi\n",
                heading,
                lines.join("\n")
            ));
        }
    }
    if let Some(after) = tool.get_after_help() {
        let after = after.to_string();
        let status = after.strip_prefix("Exit status: ").unwrap_or(&after);
        page.push_str(&format!(".SH EXIT STATUS\n{}\n", plain(status)));
    }
    page
}

/// A command with what it takes without an option's name.
fn usage(command: &Command) -> String {
    command
        .get_positionals()
        .fold(format!("amsulfezd {}", command.get_name()), |text, arg| {
            let name = arg.get_id().to_string();
            format!(
                "{} {}",
                text,
                if arg.is_required_set() {
                    name
                } else {
                    format!("[{}]", name)
                }
            )
        })
}

fn is_help(arg: &Arg) -> bool {
    arg.get_id() == "help" || arg.get_id() == "version"
}

/// "-o, --output FILE".
fn name(arg: &Arg) -> String {
    let value = if arg.get_action().takes_values() {
        let names = arg
            .get_value_names()
            .unwrap_or_default()
            .iter()
            .map(|name| name.to_string());
        names.collect::<Vec<_>>().join(" ")
    } else {
        String::new()
    };
    if arg.is_positional() {
        return arg.get_id().to_string();
    }
    let short = arg.get_short().map(|short| format!("-{}", short));
    let long = arg.get_long().map(|long| format!("--{}", long));
    let names = [short, long]
        .into_iter()
        .flatten()
        .collect::<Vec<_>>()
        .join(", ");
    format!("{} {}", names, value).trim().to_string()
}

/// Its help, its default, and the values that it can have.
fn help(arg: &Arg) -> String {
    let mut text = arg.get_help().map(ToString::to_string).unwrap_or_default();
    let defaults: Vec<String> = arg
        .get_default_values()
        .iter()
        .map(|value| value.to_string_lossy().to_string())
        .collect();
    if arg.get_action().takes_values() && !defaults.is_empty() {
        text.push_str(&format!(" (without it {})", defaults.join(", ")));
    }
    let values: Vec<String> = arg
        .get_possible_values()
        .iter()
        .map(|value| value.get_name().to_string())
        .collect();
    if arg.get_action().takes_values() && !values.is_empty() {
        text.push_str(&format!("; one of {}", values.join(", ")));
    }
    text
}

/// A text in which man finds no sign of its own.
fn plain(text: &str) -> String {
    let text = text.replace('\\', "\\\\").replace('-', "\\-");
    match text.strip_prefix(|first| first == '.' || first == '\'') {
        Some(_) => format!("\\&{}", text),
        None => text,
    }
}
