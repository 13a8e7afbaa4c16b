//! Plans where letter case is ignored.

use syncplan_tests::Profile::{Exact, Folded};
use syncplan_tests::{due, texts};

/// Each tree beside its root.
fn plan(trees: [&str; 3], printed: &str) {
    let files = trees.map(|tree| format!(". type=dir\n{tree}"));
    due(Folded, &texts([&files[0], &files[1], &files[2]]), printed);
}

/// C12 and C13 with other spellings: the left's where left has the entry, else the right's.
#[test]
fn c12_and_c13_in_other_spellings() {
    let archive = "L type=dir\nd1 @1\nd2 @2\n..\nR type=dir\n";
    let left = "l type=dir\nD1 @3\nD2 @2\nd3 @4\n..\nr type=dir\n";
    let right = "L type=dir\nd1 @5\nD3 @4\n..\nR type=dir\nD1 @6\n";
    let printed = "! ./l/D1\n< ./l/D2\n< ./R/D1\n= 2 0 1\n";
    plan([archive, left, right], printed);
    let left = "l type=dir\nD1 @3\nd3 @4\n..\nr type=dir\n";
    plan([archive, left, right], "! ./l/D1\n< ./R/D1\n= 1 0 1\n");
}

#[test]
fn a_spelling_alone_is_no_change() {
    let trees = [
        "P type=dir\nDAY @1\n",
        "p type=dir\nDay @1\n",
        "P type=dir\nday @1\n",
    ];
    plan(trees, "= 0 0 0\n");
    // So the removal of a folder that is only spelled otherwise goes through.
    plan([trees[0], trees[1], ""], "< ./p\n= 1 0 0\n");
    plan([trees[0], "", trees[2]], "> ./P\n= 0 1 0\n");
    plan(["", trees[1], "p @1\n"], "! ./p\n= 0 0 1\n");
}

/// `_` is 95: before B, which counts as 98, and after it where case counts.
#[test]
fn lines_in_folded_order() {
    let left = "B @1\n_ @1\na @1\n@ @1\n`x @1\nC @1\n{ @1\n";
    plan(
        ["", left, ""],
        "> ./\\100\n> ./_\n> ./\\140x\n> ./a\n> ./B\n> ./C\n> ./\\173\n= 0 7 0\n",
    );
    let lone = ". type=dir\n";
    due(
        Exact,
        &texts([lone, &format!("{lone}{left}"), lone]),
        "> ./\\100\n> ./B\n> ./C\n> ./_\n> ./\\140x\n> ./a\n> ./\\173\n= 0 7 0\n",
    );
    // Of the sides' lines that stand beside each other too.
    plan(
        ["", "B @1\n_ @1\n", "A @2\nc @2\n"],
        "> ./_\n< ./A\n> ./B\n< ./c\n= 2 2 0\n",
    );
}

#[test]
fn a_name_twice_in_other_spellings() {
    for (tree, place) in [
        ("a @1\nA @1\n", 3),
        ("a @1\n\\101 type=dir\n", 3),
        ("\\101 type=dir\nb @1\n..\na @1\n", 5),
        ("Ab @1\nb @1\n\\141\\102 @1\n", 4),
    ] {
        plan(
            [tree, "a/ @1\n", ""],
            &format!("refused archive 13 {place}\n"),
        );
        plan(["", tree, "a/ @1\n"], &format!("refused left 13 {place}\n"));
        plan(["", "", tree], &format!("refused right 13 {place}\n"));
    }
    // Letters beyond ASCII keep their case, and a name within itself is another.
    let tree = "\\311 @1\n\\351 @1\na type=dir\nA type=dir\na @1\n";
    plan([tree, tree, tree], "= 0 0 0\n");
}

/// The right's path where left has not the entry, though left has the folders on the way.
#[test]
fn whose_spelling_a_path_has() {
    plan(
        [
            "Dir type=dir\nOne @1\nTwo @1\nThree @1\n",
            "DIR type=dir\none @2\ntwo @1\nTHREE @1\nFour @1\n",
            "dir type=dir\nONE @3\nNew @1\nthree @2\n",
        ],
        concat!(
            "> ./DIR/Four\n",
            "< ./dir/New\n",
            "! ./DIR/one\n",
            "< ./DIR/THREE\n",
            "< ./DIR/two\n",
            "= 3 1 1\n"
        ),
    );
}
