//! Runs folders as guests of one host, and prints what `jvhost run FOLDER...` prints. Use: run_folders FOLDER...

use jvhost::{End, Guest, Host, Observation};
use std::error::Error;
use std::fs;

/// Bytes as `jvhost` prints them.
fn shown(bytes: &[u8]) -> String {
    bytes.iter().map(|it| if (32..127).contains(it) && *it != b'\\' { char::from(*it).to_string() } else { format!("\\x{it:02x}") }).collect()
}

fn report(number: u32, folder: &str, names: &[String], seen: &Observation) {
    println!("guest {number} {folder}");
    for (name, verdict) in names.iter().zip(&seen.verdicts) {
        println!("  {name}: {verdict}");
    }
    println!("  steps {}", seen.steps);
    println!("  throws {}{}", seen.throws, seen.last.as_ref().map_or(String::new(), |it| format!(" last {}", shown(it))));
    println!("  output {}:{}{}", seen.output.len(), if seen.output.is_empty() { "" } else { " " }, shown(&seen.output));
    match &seen.end {
        End::Threw(class) => println!("  end Threw {}", shown(class)),
        end => println!("  end {end:?}"),
    }
}

fn main() -> Result<(), Box<dyn Error>> {
    let (mut host, mut guests) = (Host::new()?, Vec::new());
    for folder in std::env::args().skip(1) {
        let mut names = Vec::new();
        for entry in fs::read_dir(&folder)? {
            names.push(entry?.file_name().to_string_lossy().into_owned());
        }
        names.retain(|it| it.ends_with(".class"));
        names.sort();
        let files = names.iter().map(|it| fs::read(format!("{folder}/{it}"))).collect::<Result<Vec<_>, _>>()?;
        let files: Vec<&[u8]> = files.iter().map(Vec::as_slice).collect();
        let main = fs::read_to_string(format!("{folder}/main"))?;
        let input = fs::read(format!("{folder}/input")).unwrap_or_default();
        let id = host.admit(&Guest::new(&files, main.trim_end().as_bytes(), &input))?;
        guests.push((id, folder, names));
    }
    host.run(1_000, 10_000)?;
    for (id, folder, names) in &guests {
        report(id + 1, folder, names, &host.observe(*id)?);
    }
    Ok(())
}
