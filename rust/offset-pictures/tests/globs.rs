//! A program that imports all of a crate has std's `Vec` and `String` still.

mod of_scripts {
    use offset_script::*;

    pub fn one_call() -> (Script, Vec<u64>) {
        let script = parse(Global, b"space 1000 nodes 16 index 32\nalloc 300\n").unwrap();
        assert_eq!(String::from("text"), "text");
        let own = Vec::from([script.commands.len() as u64]);
        (script, own)
    }
}

mod of_pictures {
    use offset_pictures::*;

    pub fn drawn() -> String {
        let (script, mut own) = super::of_scripts::one_call();
        own.extend(Vec::from([2]));
        assert_eq!(own, [1, 2]);
        String::from(picture(Global, "one call", &script).unwrap())
    }
}

#[test]
fn vec_and_string_are_those_of_std() {
    assert!(of_pictures::drawn().starts_with("<svg"));
}
