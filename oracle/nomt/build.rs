//! Prepares the Rust's files for a build at the page size that the package's name ends with.
//!
//! The files are read from the folder that `NOMT_SRC` names and written to OUT_DIR as they are,
//! each followed by the accessors of `probes/` that reach its private items. The root file
//! `nomt.rs`, written beside them, gives them the module tree that their `crate::` paths expect.

use std::{
    env, fs,
    path::{Path, PathBuf},
    process::exit,
};

/// Where the Rust's files are when `NOMT_SRC` is not set, seen from the repository's root.
const DEFAULT_SOURCE: &str = "../shared/docs/src/nomt/src";

/// The files that are built unchanged, each with the accessors that are appended to it.
const FILES: [(&str, &str); 3] = [
    (
        "beatree/allocator/mod.rs",
        include_str!("probes/allocator.rs"),
    ),
    (
        "beatree/allocator/free_list.rs",
        include_str!("probes/free_list.rs"),
    ),
    (
        "beatree/ops/overflow.rs",
        include_str!("probes/overflow.rs"),
    ),
];

/// The constants that are taken out of a file of which nothing else is built.
const LEAF_NODE: &str = "beatree/leaf/node.rs";
const LEAF_NODE_CONSTANTS: [&str; 2] =
    ["MAX_OVERFLOW_CELL_NODE_POINTERS", "MAX_OVERFLOW_VALUE_SIZE"];

/// The file with the Rust's own page size, which is only checked: the one built with comes from
/// the package's name.
const IO: &str = "io/mod.rs";

fn main() {
    let source = Source::open();
    let out = PathBuf::from(variable("OUT_DIR"));

    for (file, probe) in FILES {
        write(&out.join(file), &(source.read(file) + probe));
    }

    let io = source.read(IO);
    if !constant(&io, "PAGE_SIZE").is_some_and(|item| item.ends_with("= 4096;")) {
        fail(&format!("{IO} does not give PAGE_SIZE as 4096"));
    }

    let leaf_node = source.read(LEAF_NODE);
    let constants = LEAF_NODE_CONSTANTS.map(|name| {
        constant(&leaf_node, name)
            .unwrap_or_else(|| fail(&format!("{LEAF_NODE} has no constant {name}")))
    });

    write(&out.join("nomt.rs"), &root(&out, &constants.join("\n")));
}

/// The root file's text.
fn root(out: &Path, leaf_node: &str) -> String {
    let page_size = page_size();
    let allocator = out.join("beatree/allocator/mod.rs");
    let overflow = out.join("beatree/ops/overflow.rs");
    format!(
        "pub const PAGE_SIZE: usize = {page_size};

        // The files stay as they are, so warnings about them serve nobody.
        #[allow(dead_code, clippy::all)]
        pub mod beatree {{
            pub use allocator::{{PageNumber, FREELIST_EMPTY}};

            #[path = {allocator:?}]
            pub mod allocator;

            pub mod leaf {{
                pub mod node {{
                    {leaf_node}
                }}
            }}

            pub mod ops {{
                #[path = {overflow:?}]
                pub mod overflow;
            }}
        }}
        "
    )
}

/// The page size that the package's name ends with: 4096 for `nomt-4096`.
fn page_size() -> usize {
    let name = variable("CARGO_PKG_NAME");
    name.strip_prefix("nomt-")
        .and_then(|size| size.parse().ok())
        .unwrap_or_else(|| fail(&format!("the package name {name} is not nomt-<page size>")))
}

/// The text of a public constant, from `pub` to its semicolon, if it is there exactly once.
fn constant<'a>(text: &'a str, name: &str) -> Option<&'a str> {
    let start = format!("pub const {name}:");
    let mut found = text.match_indices(&start);
    let (Some((at, _)), None) = (found.next(), found.next()) else {
        return None;
    };
    let item = &text[at..];
    item.find(';').map(|end| &item[..=end])
}

/// The folder of the Rust's files.
struct Source(PathBuf);

impl Source {
    fn open() -> Source {
        println!("cargo:rerun-if-env-changed=NOMT_SRC");
        let root = Path::new(&variable("CARGO_MANIFEST_DIR")).join("../../..");
        let named = env::var_os("NOMT_SRC").unwrap_or(DEFAULT_SOURCE.into());
        let folder = root.join(named);
        if !folder.is_dir() {
            fail(&format!(
                "nomt's source folder {} does not exist; set NOMT_SRC to it",
                folder.display()
            ));
        }
        Source(folder)
    }

    fn read(&self, file: &str) -> String {
        let path = self.0.join(file);
        println!("cargo:rerun-if-changed={}", path.display());
        fs::read_to_string(&path)
            .unwrap_or_else(|error| fail(&format!("{}: {error}", path.display())))
    }
}

fn write(path: &Path, text: &str) {
    // Every path written is a file below OUT_DIR, so it has a parent.
    fs::create_dir_all(path.parent().unwrap())
        .and_then(|()| fs::write(path, text))
        .unwrap_or_else(|error| fail(&format!("{}: {error}", path.display())))
}

fn variable(name: &str) -> String {
    env::var(name).unwrap_or_else(|error| fail(&format!("{name}: {error}")))
}

fn fail(message: &str) -> ! {
    eprintln!("{message}");
    exit(1)
}
