//! Lines that cannot be read, each a small damage to a line that could be, between lines that can.

use super::{actions, lists};
use crate::commands::{Command, Mode};
use crate::scribe::Scribe;
use crate::session::LINE_LIMIT;

const MEGABYTE: usize = 1 << 20;

pub fn write(scribe: &mut Scribe) {
    if scribe.random.chance(2) {
        return;
    }
    let all_with_carriage_return = scribe.random.chance(2);
    scribe.var(1, 8);
    scribe.list(&[3, 7, 1]);
    let lines = 60 + scribe.random.below(120);
    while scribe.lines < lines {
        if all_with_carriage_return {
            let mut line = readable_line(scribe);
            line.push(b'\r');
            scribe.line(line);
        } else if scribe.random.chance(45) {
            damage(scribe);
        } else {
            actions::mixed(scribe, 1, |scribe| scribe.var(0, 5));
        }
    }
    if scribe.random.chance(8) {
        very_long_line(scribe);
        scribe.show(1);
    }
    end(scribe);
}

fn end(scribe: &mut Scribe) {
    match scribe.random.below(4) {
        0 => scribe.drop_last_line_feed(),
        1 => scribe.line(""),
        2 => {
            damage(scribe);
            scribe.drop_last_line_feed();
        }
        _ => {}
    }
}

/// A line that one of the listed commands would take. It is not written as it stands, so the sketch
/// need not know it.
fn readable_fields(scribe: &mut Scribe) -> Vec<String> {
    let commands: Vec<&Command> = scribe.vocabulary.commands().collect();
    let posts = commands
        .iter()
        .copied()
        .find(|command| command.name == "post");
    let drawn = scribe.random.pick(&commands);
    let command = posts.filter(|_| scribe.random.chance(35)).unwrap_or(drawn);
    let aim = scribe.some_aim();
    let mut fields = scribe.fields_of(command, aim);
    if command.name == "list" {
        fields.extend((1..5).map(|value| value.to_string()));
    }
    fields
}

fn readable_line(scribe: &mut Scribe) -> Vec<u8> {
    readable_fields(scribe).join("\t").into_bytes()
}

fn damage(scribe: &mut Scribe) {
    let line = match scribe.random.below(10) {
        0 => unknown_command(scribe),
        1..6 => damaged_fields(scribe),
        6..8 => damaged_bytes(scribe),
        8 => line_near_the_limit(scribe),
        _ => return list_near_the_limit(scribe),
    };
    scribe.line(line);
}

fn unknown_command(scribe: &mut Scribe) -> Vec<u8> {
    if scribe.random.chance(40) {
        return command_of_the_other_mode(scribe);
    }
    let names = [
        "",
        "frob",
        "Var",
        "OPEN",
        "posts",
        "pos",
        "openn",
        "back0",
        "-",
        "0",
        "\t",
        " ",
        "#",
        "list\t",
        "trailscript",
        "stopped",
        "ok",
    ];
    let name = scribe.random.pick(&names);
    let mut fields = readable_fields(scribe);
    fields[0] = name.to_string();
    fields.truncate(1 + scribe.random.below(fields.len()));
    fields.join("\t").into_bytes()
}

/// A whole line of callscript, which trailscript must not take. Callscript takes all of
/// trailscript, so there a name is made that neither has.
fn command_of_the_other_mode(scribe: &mut Scribe) -> Vec<u8> {
    let further: Vec<&Command> = Mode::Callscript
        .commands()
        .skip(Mode::Trailscript.commands().count())
        .collect();
    let command = scribe.random.pick(&further);
    let aim = scribe.some_aim();
    let mut fields = scribe.fields_of(command, aim);
    if scribe.vocabulary.mode == Mode::Callscript {
        fields[0].push('s');
    }
    fields.join("\t").into_bytes()
}

/// One field missing, too many, empty or not a number as the language writes it.
fn damaged_fields(scribe: &mut Scribe) -> Vec<u8> {
    let mut fields = readable_fields(scribe);
    let place = scribe.random.below(fields.len());
    match scribe.random.below(12) {
        0 => drop(fields.remove(place)),
        1 => fields.push("1".to_string()),
        2 => fields.insert(place, "1".to_string()),
        3 => fields[place] = String::new(),
        4 => fields.push(String::new()),
        _ => {
            // The name of the command is spoilt elsewhere.
            let place = place.max(1).min(fields.len() - 1);
            fields[place] = spoilt_field(scribe, &fields[place]);
        }
    }
    fields.join("\t").into_bytes()
}

fn spoilt_field(scribe: &mut Scribe, field: &str) -> String {
    let huge = "9".repeat(10 + scribe.random.below(120));
    match scribe.random.below(22) {
        0 => format!("0{field}"),
        1 | 20 => "-0".to_string(),
        2 => format!("+{field}"),
        3 => "2147483648".to_string(),
        4 => "-2147483649".to_string(),
        5 => "4294967296".to_string(),
        6 => "-1".to_string(),
        7 => huge,
        8 => format!("-{huge}"),
        9 => format!("{field} "),
        10 => format!(" {field}"),
        11 => "-".to_string(),
        12 => "--1".to_string(),
        13 => "1.0".to_string(),
        14 => "0x1".to_string(),
        15 => scribe
            .random
            .pick(&["gt", "GE", "==", "g", "gee", "nE"])
            .to_string(),
        16 => "18446744073709551617".to_string(),
        17 => "4294967297".to_string(),
        18 => "00".to_string(),
        19 => format!("-0{field}"),
        _ => "1e3".to_string(),
    }
}

/// A byte put in, put elsewhere or changed.
fn damaged_bytes(scribe: &mut Scribe) -> Vec<u8> {
    let mut line = readable_line(scribe);
    let place = scribe.random.below(line.len() + 1);
    let tab = line.iter().position(|&byte| byte == b'\t');
    match scribe.random.below(12) {
        0 => return Vec::new(),
        1 => line.push(b'\t'),
        2 => line.insert(0, b'\t'),
        3 => line
            .iter_mut()
            .filter(|byte| **byte == b'\t')
            .for_each(|byte| *byte = b' '),
        4 => line.make_ascii_uppercase(),
        5 => line.insert(place, 0),
        6 => line.insert(place, 0xff),
        7 => drop(line.splice(place..place, "\u{e9}".bytes())),
        8 => line.push(b'\r'),
        9 => line.insert(place, b'\r'),
        10 => line.insert(tab.unwrap_or(0), b'\t'),
        _ => drop(line.splice(place..place, "\u{661}".bytes())),
    }
    line
}

/// A line of 199, 200 or 201 bytes that no command takes.
fn line_near_the_limit(scribe: &mut Scribe) -> Vec<u8> {
    let length = LINE_LIMIT - 1 + scribe.random.below(3);
    let mut line = readable_line(scribe);
    let filling = scribe.random.pick(&[b'1', b'\t', b' ', b'a', 0]);
    line.resize(length, filling);
    line
}

/// A list of 199 or 200 bytes is read, one of 201 is not.
fn list_near_the_limit(scribe: &mut Scribe) {
    let length = LINE_LIMIT - 1 + scribe.random.below(3);
    let values = lists::values_of_length(scribe, length);
    scribe.list(&values);
}

fn very_long_line(scribe: &mut Scribe) {
    let mut line = match scribe.random.below(3) {
        0 => b"show\t1".to_vec(),
        1 => b"list".to_vec(),
        _ => Vec::new(),
    };
    let filling = scribe
        .random
        .pick(&[&b"\t1"[..], b"1", b"a", b"\0", b"open\r"]);
    while line.len() < MEGABYTE {
        line.extend_from_slice(filling);
    }
    scribe.line(line);
}
