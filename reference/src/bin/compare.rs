//! Compares a program's rolls with the reference's: `compare PROGRAM DIR`.

use std::collections::BTreeMap;
use std::error::Error;
use std::fs::{self, File};
use std::path::{Path, PathBuf};
use std::process::{Command, ExitCode};
use std::{env, io};

use reference::roll::write_roll;

/// So many differing files are shown.
const SHOWN: usize = 5;

/// How often each number occurred.
#[derive(Default)]
struct Tally {
    inputs: BTreeMap<u32, u64>,
    policies: BTreeMap<u32, u64>,
    rows: BTreeMap<u32, u64>,
    ends: BTreeMap<u32, u64>,
}

impl Tally {
    fn count(&mut self, roll: &str) {
        for line in roll.lines() {
            let fields: Vec<&str> = line.split(' ').collect();
            let (table, field) = match fields[0] {
                "input" => (&mut self.inputs, 1),
                "policy" => (&mut self.policies, 1),
                "end" => (&mut self.ends, 3),
                _ => (&mut self.rows, 2),
            };
            let number = fields[field].parse().expect("a number of the reference");
            *table.entry(number).or_insert(0) += 1;
        }
    }

    fn print(&self) {
        let tables = [
            ("input", &self.inputs),
            ("policy", &self.policies),
            ("rows", &self.rows),
            ("end", &self.ends),
        ];
        for (name, table) in tables {
            println!("{name}: {} in all", table.values().sum::<u64>());
            for (number, times) in table {
                println!("{number:>6} {times:>10}");
            }
        }
    }
}

/// The files of a folder, 2.bin before 10.bin.
fn files(folder: &Path) -> io::Result<Vec<PathBuf>> {
    let mut files = Vec::new();
    for entry in fs::read_dir(folder)? {
        let path = entry?.path();
        if path.is_file() {
            files.push(path);
        }
    }
    files.sort_by_cached_key(|path| {
        let name = path
            .file_name()
            .unwrap_or_default()
            .to_string_lossy()
            .into_owned();
        let digits = name.bytes().take_while(u8::is_ascii_digit).count();
        (name[..digits].parse::<u64>().unwrap_or(u64::MAX), name)
    });
    Ok(files)
}

/// The first line that differs, from 1, as both have it.
fn first_difference(ours: &[u8], theirs: &[u8]) -> String {
    let mut ours = ours.split_inclusive(|&byte| byte == b'\n');
    let mut theirs = theirs.split_inclusive(|&byte| byte == b'\n');
    let show = |line: Option<&[u8]>| match line {
        Some(line) => format!("{:?}", String::from_utf8_lossy(line)),
        None => "nothing".to_string(),
    };
    for number in 1.. {
        let (our, their) = (ours.next(), theirs.next());
        if our != their {
            return format!(
                "line {number}: reference {}, program {}",
                show(our),
                show(their)
            );
        }
        if our.is_none() {
            break;
        }
    }
    "no line differs".to_string()
}

fn main() -> Result<ExitCode, Box<dyn Error>> {
    let arguments: Vec<String> = env::args().skip(1).collect();
    let [program, folder] = &arguments[..] else {
        return Err("usage: compare PROGRAM DIR".into());
    };
    let files = files(Path::new(folder))?;
    if files.is_empty() {
        return Err("no inputs".into());
    }
    let mut tally = Tally::default();
    let mut differing = 0;
    let mut ours = Vec::new();
    for path in &files {
        ours.clear();
        write_roll(&fs::read(path)?, &mut ours)?;
        tally.count(std::str::from_utf8(&ours)?);
        let run = Command::new(program).stdin(File::open(path)?).output()?;
        if run.status.success() && run.stdout == ours {
            continue;
        }
        differing += 1;
        if differing <= SHOWN {
            println!(
                "{}: {}",
                path.display(),
                first_difference(&ours, &run.stdout)
            );
            if !run.status.success() {
                println!("  the program ended with {}", run.status);
            }
        }
    }
    println!("{} inputs, {differing} differ", files.len());
    tally.print();
    Ok(if differing == 0 {
        ExitCode::SUCCESS
    } else {
        ExitCode::FAILURE
    })
}
