//! A short run of the fuzz driver. It changes the current folder, so it is alone in its program.

use trials::fuzz::{self, Span};

#[test]
fn a_short_run() {
    let folder = fuzz::enter_new_folder().expect("a new folder");
    let (rounds, counts) = fuzz::run(Span::Rounds(4000), 20).expect("no round fails");
    assert_eq!(rounds, 4000);
    for status in 0..3 {
        assert!(counts.contains_key(&("tool", status)), "no command ended with {status}");
    }
    std::fs::remove_dir_all(folder).expect("the folder goes");
}
