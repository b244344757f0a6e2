//! --json, for scripts.

use crate::folders::Scratch;

#[test]
fn a_folder_is_an_object() {
    let scratch = Scratch::new();
    scratch.small("small");
    let ran = scratch.run(["--json", "small"]);
    let expected = "[{\"folder\": \"small\", \"fit\": true, \"reasons\": [], \
        \"summary\": {\"entries\": 2, \"words\": 2, \"homographs\": 0, \"nodes\": 2, \
        \"deepest_tree\": {\"nodes\": 2, \"letter\": \"a\"}, \
        \"lex_phones_never_used\": [], \"lts_phones_never_used\": [\"t\"], \
        \"sheet_versions\": {\"suits\": [1, 2], \"entries\": 0, \"leaves\": 0}}, \
        \"faults\": [], \"warnings\": []}]\n";
    assert_eq!(ran.out, expected);
    assert_eq!((ran.err.as_str(), ran.status), ("", Some(0)));
}

#[test]
fn faults_and_warnings_have_their_places() {
    let scratch = Scratch::new();
    scratch.small_with("broken", "lts.model", b"\0x\x01\0\x02\0\xff\0\0\0\0\0");
    scratch.write("broken", "lex.phones", b"\x02\0\0\0\x02ag\x01t");
    let ran = scratch.run(["broken", "--json"]);
    let expected = "[{\"folder\": \"broken\", \"fit\": false, \"reasons\": [\"a letter's tree is damaged\"], \
        \"summary\": {\"entries\": 2, \"words\": 2, \"homographs\": 0, \"nodes\": 2, \"deepest_tree\": null, \
        \"lex_phones_never_used\": [], \"lts_phones_never_used\": null, \"sheet_versions\": null}, \
        \"faults\": [{\"kind\": \"letters\", \"section\": \"lts.model\", \"byte\": 4, \"node\": 0, \"letter\": \"a\", \
        \"message\": \"in the tree of \\\"a\\\" node 0 leads to node 2: expected one of the 2 nodes that lts.model has\"}], \
        \"warnings\": [{\"section\": \"lex.phones\", \"byte\": 5, \"phone\": \"ag\", \
        \"message\": \"phone 0, \\\"ag\\\", is none of the 50\", \"used_by\": [\
        {\"name\": \"at\", \"section\": \"lex.data\", \"byte\": 0, \"entry\": 0}, \
        {\"name\": \"et\", \"section\": \"lex.data\", \"byte\": 7, \"entry\": 1}]}]}]\n";
    assert_eq!(ran.out, expected);
    assert_eq!((ran.err.as_str(), ran.status), ("", Some(1)));
}

#[test]
fn several_folders_are_one_array() {
    let scratch = Scratch::new();
    scratch.small("one");
    scratch.small("two");
    let ran = scratch.run(["--json", "one", "two"]);
    assert!(ran.out.starts_with("[{\"folder\": \"one\", ") && ran.out.ends_with("}]\n"));
    assert_eq!(ran.out.matches("},\n {\"folder\": \"two\", ").count(), 1);
    assert_eq!(ran.status, Some(0));
}

#[test]
fn a_name_cannot_break_out_of_its_text() {
    let scratch = Scratch::new();
    let name = "a\", \"fit\": true,\n\t\\";
    let ran = scratch.run(["--json", name]);
    let front = "[{\"folder\": \"a\\\", \\\"fit\\\": true,\\u000a\\u0009\\\\\", \"fit\": false, ";
    assert!(ran.out.starts_with(front), "{}", ran.out);
    assert_eq!(ran.status, Some(1));
}
