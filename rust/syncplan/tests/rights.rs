//! Files without read rights. Root may read those too, so where root runs this the program is run as
//! nobody; it stands alone here, since a copied program can't be started while other tests start theirs.

use std::fs::{self, File, Permissions};
use std::io::{stderr, Write};
use std::os::unix::fs::PermissionsExt;
use std::os::unix::process::CommandExt;
use syncplan_tests::{check, program, text, Folder, SIDES};

const NOBODY: u32 = 65_534;

#[test]
fn a_file_without_read_rights() {
    for (side, name) in SIDES.iter().enumerate() {
        let folder = Folder::new();
        (0..3).for_each(|side| folder.put(side, Some(&text(". type=dir\na @1\n"))));
        let rights =
            |rights| fs::set_permissions(folder.file(side), Permissions::from_mode(rights));
        rights(0).unwrap();
        let root = File::open(folder.file(side)).is_ok();
        let copy = folder.path().join("program");
        fs::copy(program(), &copy).unwrap();
        let run = || {
            let mut command = folder.command_of(&copy);
            if root {
                command.uid(NOBODY).gid(NOBODY);
            }
            command.output()
        };
        let Ok(output) = run() else {
            writeln!(
                stderr(),
                "skipped: rights of {name}, nobody can't run it here"
            )
            .unwrap();
            continue;
        };
        check(&output, &format!("refused {name} 6 0\n"));
        rights(0o444).unwrap();
        check(&run().unwrap(), "= 0 0 0\n");
    }
}
