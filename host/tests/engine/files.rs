//! How the program reads and writes files, where a session cannot show it.

use std::fs;
use std::io::ErrorKind;
use std::os::unix::fs::{symlink, PermissionsExt};
use std::path::PathBuf;

use plain_terminal::front::file::Part;
use plain_terminal::front::progress::so_far;
use plain_terminal::front::source::behind;

/// An empty folder of this test's own.
fn folder(name: &str) -> PathBuf {
    let folder = PathBuf::from(env!("CARGO_TARGET_TMPDIR")).join(name);
    let _ = fs::remove_dir_all(&folder);
    fs::create_dir_all(&folder).unwrap();
    folder
}

/// A name that somebody else has taken is left alone, and a link in its place
/// is not followed.
#[test]
fn a_part_takes_a_free_name_alone() {
    let folder = folder("parts");
    fs::write(folder.join("victim"), "kept").unwrap();
    symlink("victim", folder.join("linked")).unwrap();
    symlink("nowhere", folder.join("dangling")).unwrap();
    let names = |names: &[&str]| -> Vec<String> { names.iter().map(|it| it.to_string()).collect() };
    let taken = names(&["victim", "linked", "dangling"]);
    let refused = Part::first_of(&folder, taken.clone().into_iter(), 0o600);
    assert_eq!(
        refused.err().map(|error| error.kind()),
        Some(ErrorKind::Other)
    );
    assert!(!folder.join("nowhere").exists());

    let free = names(&["free"]);
    let part = Part::first_of(&folder, taken.into_iter().chain(free), 0o600).unwrap();
    let mode = fs::metadata(folder.join("free"))
        .unwrap()
        .permissions()
        .mode();
    assert_eq!(mode & 0o777, 0o600);
    assert_eq!(fs::read_to_string(folder.join("victim")).unwrap(), "kept");
    // Without the name that was asked for, it goes again.
    drop(part);
    assert!(!folder.join("free").exists());
}

/// A file may grow while it is read: more is read than it had, and more records
/// are done than there were.
#[test]
fn a_file_that_grows() {
    assert_eq!([behind(9000, 8192), behind(0, 8192)], [808, 0]);
    assert_eq!(so_far(3, Some(5)), "3 of 5 records");
    assert_eq!(so_far(5, Some(5)), "5 of 5 records");
    assert_eq!(so_far(6, Some(5)), "6 records");
    assert_eq!(so_far(6, None), "6 records");
}
