//! That a crash keeps what was recorded.

use offset_allocator_proved::{Allocator, Global};
use offset_allocator_recorded::Recorded;

// Writes a recording and is aborted, where the other test starts it so.
#[test]
fn aborted() {
    let Ok(path) = std::env::var("RECORD_AND_ABORT") else { return };
    let file = std::fs::File::create(path).unwrap();
    let mut heap = Recorded::new(Allocator::<u32>::new(Global, 1 << 20).unwrap(), file).unwrap();
    for size in 1..1000 {
        heap.name("a name").allocate(size);
    }
    std::process::abort();
}

#[test]
fn a_crash_keeps_what_was_done() {
    let path = std::env::temp_dir().join(format!("recorded-{}.script", std::process::id()));
    let mut child = std::process::Command::new(std::env::current_exe().unwrap());
    let status = child.args(["--exact", "aborted"]).env("RECORD_AND_ABORT", &path).output().unwrap().status;
    assert!(!status.success());
    let text = std::fs::read_to_string(&path).unwrap();
    std::fs::remove_file(&path).unwrap();
    assert_eq!(text.lines().count(), 1 + 2 * 999);
    assert!(text.ends_with("\n# a name\nalloc 999\n"));
}
