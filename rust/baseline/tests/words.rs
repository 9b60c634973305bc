//! The numbers of refusals in `docs/USERS.md` are the table that the proved program `wordtable` prints.

#[test]
fn users_have_the_words_of_the_programs() {
    let table = include_str!("../../../crates/wordtable/stdout");
    let users = include_str!("../../../docs/USERS.md");
    assert!(table.lines().count() > 10, "a head, a line and ten numbers or more");
    assert!(users.contains(table), "docs/USERS.md has another table than crates/wordtable/stdout");
}
