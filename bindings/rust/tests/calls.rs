//! Each call of the crate, without `unsafe`.
#![forbid(unsafe_code)]

use jvhost::{check, judge, version, End, Error, Guest, Host, LibraryFault, Place, Verdict};
use std::fs;
use std::thread;

fn hi() -> Vec<u8> {
    fs::read("../../examples/hi/Hi.class").expect("examples/hi/Hi.class")
}

#[test]
fn judges_one_guest() {
    let class = hi();
    let files = [class.as_slice()];
    let seen = judge(&Guest::new(&files, b"Hi", b""), 1_000).unwrap();
    assert_eq!((seen.steps, seen.throws, seen.output.as_slice(), seen.end), (6, 0, b"Hi".as_slice(), End::Returned));
    assert_eq!(judge(&Guest::new(&files, b"Hi", b""), 3).unwrap().end, End::Running);
    assert_eq!(judge(&Guest::new(&[], b"Hi", b""), 3), Err(Error::NoFiles));
    assert_eq!(version(), "0.1.0");
}

#[test]
fn checks_files() {
    let class = hi();
    let verdicts = check(&[&class, b"", &class]).unwrap();
    let texts: Vec<String> = verdicts.iter().map(ToString::to_string).collect();
    assert_eq!(texts, ["Accepted", "Format", "Duplicate"]);
    assert!(verdicts[0].is_accepted() && !verdicts[1].is_accepted());
    assert_eq!(verdicts, [Verdict::Accepted, Verdict::Format, Verdict::Duplicate]);
    assert_eq!(check(&[]), Err(Error::NoFiles));
}

#[test]
fn refuses_what_is_no_library() {
    let class = hi();
    assert_eq!(Host::with_library(&[&class]).err(), Some(Error::NoLibrary(LibraryFault::Main, 0)));
    assert_eq!(Host::with_library(&[b""]).err(), Some(Error::NoLibrary(LibraryFault::Format, 0)));
    assert_eq!(Host::with_library(&[]).err(), Some(Error::NoFiles));
}

/// The files of the library for guests, but for those whose names begin so.
fn library(without: &str) -> Vec<Vec<u8>> {
    let mut paths: Vec<_> = fs::read_dir("../../library/classes").expect("library/classes").map(|it| it.unwrap().path()).collect();
    paths.retain(|it| without.is_empty() || !it.file_name().unwrap().to_string_lossy().starts_with(without));
    paths.sort();
    paths.iter().map(|it| fs::read(it).unwrap()).collect()
}

fn host_with(files: &[Vec<u8>]) -> Host {
    Host::with_library(&files.iter().map(Vec::as_slice).collect::<Vec<_>>()).unwrap()
}

#[test]
fn judges_beside_a_library() {
    let maze = fs::read("../../examples/library/maze/Maze.class").unwrap();
    let input = fs::read("../../examples/library/maze/input").unwrap();
    let files = [maze.as_slice()];
    let mut host = host_with(&library(""));
    assert!(matches!(check(&files).unwrap()[0], Verdict::Verify { .. }));
    assert_eq!(host.check(&files), Ok(vec![Verdict::Accepted]));
    let guest = Guest::new(&files, b"Maze", &input);
    let judged = host.judge(&guest, 10_000_000).unwrap();
    let id = host.admit(&guest).unwrap();
    host.run(10_000_000, 1).unwrap();
    let seen = host.observe(id).unwrap();
    assert!(seen.end == End::Returned && !seen.output.is_empty());
    assert_eq!((judged.steps, judged.throws, judged.output, judged.end), (seen.steps, seen.throws, seen.output, seen.end));
    assert_eq!(host.check(&[]), Err(Error::NoFiles));
    assert_eq!(host.judge(&Guest::new(&[], b"Maze", b""), 1), Err(Error::NoFiles));
}

#[test]
fn refuses_beside_a_library_that_does_not_stand() {
    let class = hi();
    let files = [class.as_slice()];
    let mut host = host_with(&library("java.util.AbstractMap"));
    assert_eq!(host.check(&files), Err(Error::LibraryBroken));
    assert_eq!(host.judge(&Guest::new(&files, b"Hi", b""), 1), Err(Error::LibraryBroken));
    assert_eq!(host.admit(&Guest::new(&files, b"Hi", b"")), Err(Error::LibraryBroken));
    assert_eq!(Host::new().unwrap().judge(&Guest::new(&files, b"Hi", b""), 1_000), judge(&Guest::new(&files, b"Hi", b""), 1_000));
}

#[test]
fn hosts_guests() {
    let mut host = Host::new().unwrap();
    assert_eq!(host.turn(0, 1), Err(Error::NoGuest));
    let id = {
        let class = hi();
        host.admit(&Guest::new(&[&class], b"Hi", b"unread")).unwrap()
    };
    host.feed(id, b"more").unwrap();
    assert_eq!(host.turn(id, 2), Ok(2));
    assert_eq!(host.run(1, 100), Ok(4));
    let seen = host.observe(id).unwrap();
    assert_eq!((seen.steps, seen.output.as_slice(), seen.end), (6, b"Hi".as_slice(), End::Returned));
    assert!(seen.last.is_none() && seen.place.is_none() && seen.verdicts[0].is_accepted());
    assert_eq!(host.output(id, 1).unwrap(), b"i");
    assert!(host.output(id, 9).unwrap().is_empty());
    let class = hi();
    let mut guest = Guest::new(&[], b"Hi", b"");
    assert_eq!(host.admit(&guest), Err(Error::NoFiles));
    let files = [class.as_slice()];
    guest.files = &files;
    guest.cells = 63;
    assert_eq!(host.admit(&guest), Err(Error::BudgetOutOfRange));
    assert_eq!(Error::BudgetOutOfRange.to_string(), "a number of the budget is out of its range");
}

#[test]
fn tells_where_it_was_thrown() {
    let mut host = Host::new().unwrap();
    let class = hi();
    let id = host.admit(&Guest { output: 1, ..Guest::new(&[&class], b"Hi", b"") }).unwrap();
    host.run(1_000, 10).unwrap();
    let place = Place { class: b"Hi".to_vec(), method: b"main".to_vec(), descriptor: b"([Ljava/lang/String;)V".to_vec(), offset: 7 };
    assert_eq!(host.observe(id).unwrap().place, Some(place));
}

#[test]
fn goes_to_another_thread() {
    let mut host = Host::new().unwrap();
    let class = hi();
    host.admit(&Guest::new(&[&class], b"Hi", b"")).unwrap();
    let mut host = thread::spawn(move || {
        host.run(1_000, 10).unwrap();
        host
    })
    .join()
    .unwrap();
    assert_eq!(host.observe(0).unwrap().end, End::Returned);
}
