//! The help: of the whole command, and of each of its parts. The man page is made of the same texts.

use crate::Stop;

const LEAD: &str = "\
usage: cdf COMMAND [OPTION].. [FILE]..

Checks, explains, shows, lists, rescues and resolves Common Data Format streams: family trees, function calls and files as nested units.
";

/// Name, words of its call, and what it does.
const COMMANDS: [(&str, &str, &str); 9] = [
    (
        "check",
        "check [--json] [FILE or FOLDER]..",
        "\
Says of each file whether it is a stream: 'ok N' for N units, or 'refused N at OFFSET' with the number of the rule that is broken
first, and where. Of a folder every file in it is asked, and in the folders in it; hidden ones are passed over. With more than
one file each line begins with the file's name, and totals by number come last.
The exit status is 1 if any is refused, and 2 if any could not be read.",
    ),
    (
        "explain",
        "explain [--json] [FILE]",
        "\
Says in words why a file is refused: the rule and the byte, the units around it, what could have stood there, the last whole
template before it, and what has likely happened to the file where that can be told.
The exit status is 1 for a refusal.",
    ),
    (
        "show",
        "show [--json] [--offsets] [--ranks] [FILE]",
        "\
Shows the tree: a line for each unit, indented by its depth, with its action, kind, name, number and value. Of a refused file all
units before the fault are shown, and then the fault in words. --offsets begins each line with where the unit starts; --ranks puts
before each unit, in brackets, how many stand before it directly in the same unit. With --json depth and rank are always there.
On a terminal lines are cut at its width. The exit status is 1 for a refusal.",
    ),
    (
        "states",
        "states [--json] [FILE]",
        "\
Reads the file by the table of states, for those who know the printed one: a line for each unit with where it begins, how deep it lies,
what it is, and the state of the unit around it before it came and from then on, by number and in words. Of a refused file all units
before the fault are there, then the fault in words, whether the table refused it, and the ids that the row admits which counts
there. docs/STATE-TABLE.md has the table.
On a terminal lines are cut at its width. The exit status is 1 for a refusal.",
    ),
    (
        "list",
        "list [--json] [FILE]",
        "\
Lists the stream for programs: a line for each unit with offset, depth, id, action and length, then 'ok N' for N units. Of bytes
that are no stream only 'refused N at OFFSET'.
The exit status is 0 for a refusal too, since the listing was written: scripts that want to know ask 'check'.",
    ),
    (
        "lookup",
        "lookup [--json] [--value] [--raw] FIRST [SECOND] TEMPLATE KEY FIELD",
        "\
Finds the value of a field, in the first of two files that has it: in each, the first template of this name whose first key is KEY
is searched. KEY is '#' and a number, 0 to 4294967295, for a temporary key, and else a template key's text; '##x' is the text
'#x'. Names are given as they read, without their count byte. With one file only that is searched.
--value writes the value alone: into a pipe byte for byte, on a terminal escaped unless --raw is given. --raw writes the value as
it is, and a line feed behind it.
The exit status is 1 for a refusal: a file that the check refuses, a root that is no E/R data group, a field that is not there.",
    ),
    (
        "rescue",
        "rescue [--json] FILE OUT",
        "\
Keeps what is whole in a broken E/R data group, and writes the group of it to OUT: where a template, a relation or an ordered relation
stands whole, from byte 6 on, it is kept, and else a byte is dropped. Says how many templates and relations were kept, and of each run
of dropped bytes what was kept before and after it and what in it can still be read. Under a run stands what is to be checked: a unit
kept before it that may have lost bytes, and one kept after it that may be text of a field. Then come the kept relations that name a
template which was not kept. OUT is written as a whole or not at all, and may be FILE. Up to 1,048,576 bytes are read.
The exit status is 1 for a refusal: fewer than six bytes, nothing to keep, more than 64 runs, too long a file or group. OUT then stays
as it was.",
    ),
    (
        "resolve",
        "resolve [--json] [FILE]",
        "\
Says which template each entity key with a temporary key means, before an E/R data group is stored: the one before it with this name and
this number. A line for each such key has the relation, where it begins and which side of it the key is, source or target; the name and
the number; and the template: where it stands, its rank, which is how many templates and relations stand before it in the group, and its
first fields. Entity keys with template keys are not asked.
The exit status is 1 for a refusal: a file that the check refuses, a root that is no E/R data group, more than 256 templates with temporary
keys, two templates with one name and temporary key, a key without a template. The words then name the unit and what to ask the sender.",
    ),
    ("help", "help [--man] [COMMAND]", "This text, or that of one command. --man writes the manual page."),
];

const TAIL: &str = "\
Without FILE, or where it is '-', the stream is read from standard input. Behind '--' every word is a file. At most 65,536
bytes are read of a file: a stream has at most 65,535, so a longer file is refused whatever follows; only 'rescue' reads more.
--json writes one object a file; docs/USING.md names its fields. What comes from a file is written with control characters escaped.
Bytes are counted from 0. Exit status: 0 done, 1 refused, 2 wrong usage, or reading or writing failed.
-h, --help, --version.
";

/// The calls, in a few lines.
pub fn short() -> String {
    let calls: String = COMMANDS.iter().map(|(_, call, _)| format!("       cdf {call}\n")).collect();
    format!("{}'cdf help' says more.\n", calls.replacen("       ", "usage: ", 1))
}

/// The help of a command, or of all.
pub fn about(command: Option<&str>) -> Result<String, Stop> {
    match command {
        None => {
            let parts: String = COMMANDS.iter().map(|(_, call, words)| format!("\ncdf {call}\n{}\n", indented(words))).collect();
            Ok(format!("{LEAD}{parts}\n{TAIL}"))
        }
        Some(name) => match COMMANDS.iter().find(|(known, _, _)| *known == name) {
            Some((_, call, words)) => Ok(format!("usage: cdf {call}\n\n{words}\n")),
            None => Err(Stop::Usage(format!("no command '{}'", crate::escape::escaped(name.as_bytes())))),
        },
    }
}

/// The manual page, in the language of man.
pub fn man() -> String {
    let plain = |text: &str| text.replace('\\', "\\e").replace('-', "\\-").replace('\'', "\\(aq");
    let mut page = String::from(
        ".TH CDF 1\n.SH NAME\ncdf \\- check, explain, show, list, rescue and resolve Common Data Format streams\n.SH SYNOPSIS\n",
    );
    page.push_str(".B cdf\nCOMMAND [OPTION].. [FILE]..\n.SH DESCRIPTION\n");
    let lead = LEAD.split("\n\n").nth(1).unwrap_or_default();
    page.push_str(&plain(lead));
    page.push_str(".SH COMMANDS\n");
    for (_, call, words) in COMMANDS {
        page.push_str(&format!(".TP\n.B cdf {}\n{}\n", plain(call), plain(words)));
    }
    page.push_str(".SH FILES AND STATUS\n");
    page.push_str(&plain(TAIL));
    page
}

fn indented(words: &str) -> String {
    words.lines().map(|line| format!("    {line}")).collect::<Vec<_>>().join("\n")
}

#[cfg(test)]
mod tests {
    #[test]
    fn the_manual_page_is_the_help() {
        assert_eq!(include_str!("../cdf.1"), super::man(), "'cdf help --man' writes it");
    }
}
