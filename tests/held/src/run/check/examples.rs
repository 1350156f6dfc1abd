// The examples of the repository: each table gives the rows that are kept beside it, its text packs
// to it, and so does what is printed for it. Tests alone: a program does not know where they are.
use crate::paper::rows;
use crate::paper::text::{print, read};
use std::path::{Path, PathBuf};

/// The tables of the folder.
fn tables() -> Vec<PathBuf> {
    let examples = Path::new(env!("CARGO_MANIFEST_DIR")).join("../../examples");
    let files = std::fs::read_dir(examples).expect("the folder of examples");
    let files = files.map(|entry| entry.expect("a file").path());
    let tables: Vec<PathBuf> =
        files.filter(|file| file.extension().is_some_and(|end| end == "tbl")).collect();
    assert!(tables.len() > 10, "only {} tables", tables.len());
    tables
}

#[test]
fn tables_give_their_rows() {
    for table in tables() {
        let bytes = std::fs::read(&table).expect("a table");
        let kept = std::fs::read_to_string(table.with_extension("rows")).expect("its rows");
        assert_eq!(rows::printed(&bytes), kept, "{}", table.display());
    }
}

#[test]
fn texts_pack_to_their_tables() {
    for table in tables() {
        let bytes = std::fs::read(&table).expect("a table");
        let text = std::fs::read(table.with_extension("txt")).expect("its text");
        assert_eq!(read::packed(&text), Ok(bytes), "{}", table.display());
    }
}

#[test]
fn tables_print_to_texts_that_pack_to_them() {
    for table in tables() {
        let bytes = std::fs::read(&table).expect("a table");
        let (taken, text) = print::unpacked(&bytes);
        assert!(taken, "{}", table.display());
        assert_eq!(read::packed(text.as_bytes()), Ok(bytes), "{}", table.display());
    }
}
