//! The tree of a commit: its work tree in a folder outside this one, its archive, and its server, which is built with its own
//! binding.

use std::env;
use std::ffi::OsStr;
use std::fs;
use std::iter;
use std::path::{Path, PathBuf};
use std::process::{Command, Stdio};

/// Why nothing was measured.
#[derive(Debug, PartialEq, Eq)]
pub enum Failure {
    /// The commit is none, or has nothing that could be measured.
    Commit(String),
    /// Something else went wrong.
    Other(String),
}

impl From<String> for Failure {
    fn from(message: String) -> Failure {
        Failure::Other(message)
    }
}

/// What a command writes, without the last line's end; its messages are shown.
fn output(command: &mut Command) -> Result<String, String> {
    let output = command.stderr(Stdio::inherit()).output();
    let words: Vec<_> =
        iter::once(command.get_program()).chain(command.get_args()).map(OsStr::to_string_lossy).collect();
    match output {
        Ok(output) if output.status.success() => Ok(String::from_utf8_lossy(&output.stdout).trim_end().to_string()),
        Ok(output) => Err(format!("{}: {}", words.join(" "), output.status)),
        Err(error) => Err(format!("{}: {error}", words.join(" "))),
    }
}

/// Git in a folder, whatever repository a hook of git may have named in the environment.
fn git(folder: &Path, words: &[&str]) -> Command {
    let mut command = Command::new("git");
    for name in ["GIT_DIR", "GIT_WORK_TREE", "GIT_INDEX_FILE", "GIT_COMMON_DIR", "GIT_OBJECT_DIRECTORY", "GIT_PREFIX"] {
        command.env_remove(name);
    }
    command.arg("-C").arg(folder).args(words);
    command
}

/// What git says quietly, or nothing where it fails.
fn asked(folder: &Path, words: &[&str]) -> Option<String> {
    let output = git(folder, words).output().ok()?;
    output.status.success().then(|| String::from_utf8_lossy(&output.stdout).trim_end().to_string())
}

/// The full name of a commit.
pub fn resolve(root: &Path, commit: &str) -> Result<String, Failure> {
    let named = format!("{commit}^{{commit}}");
    let found = output(&mut git(root, &["rev-parse", "--verify", "--quiet", &named]));
    found.ok().filter(|_| !commit.starts_with('-')).ok_or(Failure::Commit(format!("{commit}: no such commit")))
}

/// A commit's short name and its first line.
pub fn title(root: &Path, commit: &str) -> String {
    asked(root, &["log", "-1", "--format=%h %s", commit]).unwrap_or(commit.to_string())
}

/// Whether anything stands in a tree that its commit does not have.
pub fn is_changed(tree: &Path) -> bool {
    asked(tree, &["status", "--porcelain"]) != Some(String::new())
}

/// Whether a folder is a work tree of its own, at the commit, with nothing changed.
fn is_at(tree: &Path, commit: &str) -> bool {
    let top = asked(tree, &["rev-parse", "--show-toplevel"]).and_then(|top| fs::canonicalize(top).ok());
    top.is_some()
        && top == fs::canonicalize(tree).ok()
        && asked(tree, &["rev-parse", "HEAD"]).as_deref() == Some(commit)
        && !is_changed(tree)
}

/// Makes a work tree of a commit, given by its full name. One that is there is used again; one that is stale is replaced.
pub fn check_out(root: &Path, commit: &str, tree: &Path) -> Result<(), String> {
    if is_at(tree, commit) {
        return Ok(());
    }
    if tree.exists() {
        fs::remove_dir_all(tree).map_err(|error| format!("{}: {error}", tree.display()))?;
    }
    // With force, git takes a path again whose folder was removed.
    output(git(root, &["worktree", "add", "--quiet", "--force", "--detach"]).arg(tree).arg(commit)).map(drop)
}

/// A folder's path as one name: hyphens first, which are doubled, so that no two paths have the same name. There is no percent sign in
/// it: in a folder with one, lld cannot open what it is to write.
fn name_of(folder: &str) -> String {
    folder.replace('-', "--").replace('/', "-_")
}

/// Where commits are checked out and servers are built: outside the tree, since `rt ci` looks through all of it and refuses the
/// sources of another one. The folder's name has the path of git's own, so that each tree has its own.
pub fn rooms(root: &Path) -> Result<PathBuf, String> {
    output(&mut git(root, &["rev-parse", "--absolute-git-dir"]))
        .map(|folder| env::temp_dir().join("awelodrun-against").join(name_of(&folder)))
}

/// The crate of the library, by what crates.txt lists: its name stands first, and its kind may follow.
pub fn library_crate(crates: &str) -> Option<&'static str> {
    let listed =
        crates.lines().filter_map(|line| line.split_once(':')).filter_map(|(name, _)| name.split_whitespace().next());
    ["awelodrun", "capi"].into_iter().find(|library| listed.clone().any(|name| name == *library))
}

/// The source of the server, in bench/server, that fits a tree's binding.
pub fn server_source(tree: &Path) -> Option<&'static str> {
    let binding = tree.join("tests/outside/src");
    let sources = [("bound.rs", "bound.rs"), ("ffi.rs", "early.rs")];
    sources.into_iter().find(|(file, _)| binding.join(file).is_file()).map(|(_, source)| source)
}

/// By how many bytes the code of a server is moved: to every place in a line of 64 bytes where an instruction can begin, or
/// a function, where functions begin at multiples of 16; to each equally often.
pub const PLACES: [usize; 16] = [0, 4, 8, 12, 16, 20, 24, 28, 32, 36, 40, 44, 48, 52, 56, 60];

/// The manifest of a server: a program for each place. It is the same for all but for the paths, so that all are built alike.
fn manifest(source: &Path, outside: &Path, features: &str) -> String {
    let main = source.with_file_name("main.rs");
    let programs = PLACES.map(|place| format!("[[bin]]\nname = \"at-{place}\"\npath = {main:?}\n\n")).concat();
    format!(
        "# Made by bench/run --against: one side's server, at several places.\n\
         [package]\nname = \"server\"\nversion = \"0.1.0\"\nedition = \"2021\"\npublish = false\n\n\
         [lib]\npath = {source:?}\n\n\
         {programs}\
         [dependencies]\noutside = {{ path = {outside:?}, features = [{features}] }}\n\n\
         [profile.release]\ncodegen-units = 1\npanic = \"abort\"\n\n\
         [workspace]\n"
    )
}

/// How a tree's binding is told of the archive: by its folder where the tree has the crate rust/awelodrun, and by its path
/// where it is an earlier one. Both are set, so that nothing of this process's environment is taken instead.
fn told(archive: Option<&Path>) -> [(&'static str, &Path); 2] {
    let archive = archive.unwrap_or(Path::new(""));
    [("AWELODRUN_LIB", archive), ("AWELODRUN_LIB_DIR", archive.parent().unwrap_or(archive))]
}

/// The programs of a server, one for each place.
#[derive(Clone)]
pub struct Programs(PathBuf);

impl Programs {
    pub fn at(&self, place: usize) -> PathBuf {
        self.0.join(format!("at-{place}"))
    }

    /// Builds a server from a source of bench/server and a tree's binding, in a folder of its own. Without an archive it gets
    /// no library.
    pub fn build(folder: &Path, source: &Path, tree: &Path, archive: Option<&Path>) -> Result<Programs, String> {
        let features = if archive.is_some() { "\"library\"" } else { "" };
        let path = folder.join("Cargo.toml");
        let text = manifest(source, &tree.join("tests/outside"), features);
        let written = fs::create_dir_all(folder).and_then(|()| fs::write(&path, text));
        written.map_err(|error| format!("{}: {error}", path.display()))?;
        let target = folder.join("target");
        let mut cargo = Command::new("cargo");
        cargo.args(["build", "--quiet", "--release", "--offline", "-j", "1", "--manifest-path"]).arg(&path);
        cargo.arg("--target-dir").arg(&target).envs(told(archive));
        output(&mut cargo)?;
        Ok(Programs(target.join("release")))
    }
}

/// A tree whose library can be measured: this one, or a commit's.
pub struct Tree {
    folder: PathBuf,
    library: &'static str,
    source: &'static str,
}

impl Tree {
    pub fn new(folder: &Path) -> Result<Tree, String> {
        let crates = fs::read_to_string(folder.join("crates.txt")).unwrap_or_default();
        let library = library_crate(&crates).ok_or("crates.txt lists no crate of the library")?;
        let source = server_source(folder).ok_or("tests/outside has no binding of the library")?;
        if !folder.join("tools/native-archive").is_file() {
            return Err("there is no tools/native-archive".into());
        }
        Ok(Tree { folder: folder.into(), library, source })
    }

    /// Builds the archive with the tree's own tools, where it is not current. Their last line is its path.
    pub fn archive(&self) -> Result<PathBuf, String> {
        let said = output(Command::new(self.folder.join("tools/native-archive")).arg(self.library))?;
        Ok(said.lines().last().unwrap_or_default().into())
    }

    /// Builds the server of an archive with the tree's own binding. The sources of the servers are in `root`.
    pub fn server(&self, root: &Path, archive: &Path, folder: &Path) -> Result<Programs, String> {
        Programs::build(folder, &root.join("bench/server").join(self.source), &self.folder, Some(archive))
    }
}

#[cfg(test)]
mod tests {
    use super::*;

    /// A folder for one test, removed at its end.
    struct Room(PathBuf);

    impl Room {
        fn new(name: &str) -> Room {
            let folder = std::env::temp_dir().join(format!("awelodrun-bench-{name}-{}", std::process::id()));
            fs::create_dir_all(&folder).unwrap();
            Room(folder)
        }

        fn write(&self, path: &str, text: &str) {
            let path = self.0.join(path);
            fs::create_dir_all(path.parent().unwrap()).unwrap();
            fs::write(path, text).unwrap();
        }

        /// A commit of what is there; its full name.
        fn commit(&self, subject: &str) -> String {
            output(&mut git(&self.0, &["init", "--quiet"])).unwrap();
            output(&mut git(&self.0, &["add", "--all"])).unwrap();
            let who = ["-c", "user.name=bench", "-c", "user.email=bench@localhost", "-c", "commit.gpgsign=false"];
            output(git(&self.0, &who).args(["commit", "--quiet", "--no-verify", "-m", subject])).unwrap();
            resolve(&self.0, "HEAD").unwrap()
        }
    }

    impl Drop for Room {
        fn drop(&mut self) {
            let _ = fs::remove_dir_all(&self.0);
        }
    }

    #[test]
    fn the_library_is_the_crate_that_is_listed() {
        assert_eq!(library_crate("# The ground.\nbasics:\nawelodrun: basics table\n"), Some("awelodrun"));
        assert_eq!(library_crate("plain: table\ncapi: table plain\n"), Some("capi"));
        assert_eq!(library_crate("capi:\nawelodrun: capi\n"), Some("awelodrun"));
        assert_eq!(library_crate("plain: table\nawelodrun staticlib: table plain\n"), Some("awelodrun"));
        assert_eq!(library_crate("# awelodrun comes later\ntable: capi\nmycapi: table\n"), None);
        assert_eq!(library_crate(""), None);
        let listed = fs::read_to_string(Path::new(env!("CARGO_MANIFEST_DIR")).join("../crates.txt")).unwrap();
        assert_eq!(library_crate(&listed), Some("awelodrun"));
    }

    #[test]
    fn the_server_fits_the_binding_that_is_there() {
        let room = Room::new("binding");
        assert_eq!(server_source(&room.0), None);
        room.write("tests/outside/src/ffi.rs", "");
        assert_eq!(server_source(&room.0), Some("early.rs"));
        room.write("tests/outside/src/bound.rs", "");
        assert_eq!(server_source(&room.0), Some("bound.rs"));
        let root = Path::new(env!("CARGO_MANIFEST_DIR")).join("..");
        assert_eq!(server_source(&root), Some("bound.rs"));
        for source in ["bound.rs", "early.rs", "plain.rs", "main.rs"] {
            assert!(root.join("bench/server").join(source).is_file());
        }
    }

    #[test]
    fn a_tree_needs_a_library_a_binding_and_the_tool() {
        let room = Room::new("needs");
        let refused = |word: &str| Tree::new(&room.0).err().is_some_and(|message| message.contains(word));
        assert!(refused("crates.txt"));
        room.write("crates.txt", "capi: table\n");
        assert!(refused("binding"));
        room.write("tests/outside/src/ffi.rs", "");
        assert!(refused("native-archive"));
        room.write("tools/native-archive", "");
        let tree = Tree::new(&room.0).unwrap();
        assert_eq!((tree.library, tree.source), ("capi", "early.rs"));
    }

    #[test]
    fn a_servers_manifest_names_the_trees_own_binding() {
        let text = manifest(Path::new("/new/early.rs"), Path::new("/old/a \"tree\""), "\"library\"");
        assert!(text.contains("[lib]\npath = \"/new/early.rs\"\n"));
        assert!(text.contains("name = \"at-0\"\npath = \"/new/main.rs\"\n"));
        assert!(text.contains("name = \"at-60\"\npath = \"/new/main.rs\"\n"));
        assert!(text.contains("outside = { path = \"/old/a \\\"tree\\\"\", features = [\"library\"] }\n"));
    }

    #[test]
    fn a_binding_is_told_of_the_archive_in_both_ways() {
        let [early, now] = told(Some(Path::new("/old/target/native/libcapi.a")));
        assert_eq!(early, ("AWELODRUN_LIB", Path::new("/old/target/native/libcapi.a")));
        assert_eq!(now, ("AWELODRUN_LIB_DIR", Path::new("/old/target/native")));
        assert_eq!(told(None).map(|(_, path)| path), [Path::new(""); 2]);
    }

    #[test]
    fn the_places_are_all_there_are_equally_often() {
        for step in [4, 16] {
            let mut times = [0; 64];
            PLACES.iter().for_each(|place| times[place.next_multiple_of(step) % 64] += 1);
            assert!((0..64).all(|place| times[place] == if place % step == 0 { step / 4 } else { 0 }));
        }
    }

    #[test]
    fn two_folders_have_two_names() {
        assert_eq!(name_of("/a/b-c"), "-_a-_b--c");
        let folders = ["/a/b", "/a-b", "/a-_b", "/a--b", "/a-/b", "/a/-b", "/a_b", "-_a/b"];
        let names = folders.map(name_of);
        for (i, name) in names.iter().enumerate() {
            assert!(!name.contains('/') && !names[..i].contains(name), "{name}");
        }
    }

    #[test]
    fn a_commit_is_found_by_any_of_its_names() {
        let room = Room::new("names");
        room.write("a", "1");
        let commit = room.commit("one");
        for name in ["HEAD", &commit, &commit[..9]] {
            assert_eq!(resolve(&room.0, name).as_ref(), Ok(&commit));
        }
        let title = title(&room.0, &commit);
        assert!(title.strip_suffix(" one").is_some_and(|short| commit.starts_with(short)), "{title}");
        for name in ["nothing", "HEAD~1", "--all", "", "0000000000000000000000000000000000000000"] {
            assert_eq!(resolve(&room.0, name), Err(Failure::Commit(format!("{name}: no such commit"))));
        }
    }

    #[test]
    fn a_work_tree_is_used_again_and_a_stale_one_is_replaced() {
        let room = Room::new("stale");
        room.write(".gitignore", "target/\n");
        room.write("a", "1");
        let one = room.commit("one");
        room.write("a", "2");
        let two = room.commit("two");
        let tree = rooms(&room.0).unwrap().join("tree");
        assert!(!tree.starts_with(&room.0), "outside the tree");
        let holds = |text: &str| fs::read_to_string(tree.join("a")).unwrap() == text;
        let made = |commit: &str| check_out(&room.0, commit, &tree).unwrap();

        made(&one);
        assert!(holds("1") && !is_changed(&room.0));
        fs::create_dir(tree.join("target")).unwrap();
        fs::write(tree.join("target/built"), "").unwrap();
        made(&one);
        assert!(tree.join("target/built").exists(), "what was built is kept");
        made(&two);
        assert!(holds("2"), "another commit");
        fs::write(tree.join("a"), "3").unwrap();
        made(&two);
        assert!(holds("2"), "a changed file");
        fs::remove_dir_all(&tree).unwrap();
        made(&two);
        assert!(holds("2"), "a folder that was removed");
        fs::remove_file(tree.join(".git")).unwrap();
        made(&two);
        assert!(holds("2") && is_at(&tree, &two), "a folder that is no work tree");
        fs::write(tree.join(".git"), "gitdir: /nowhere\n").unwrap();
        made(&two);
        assert!(is_at(&tree, &two), "a work tree of nothing");
        fs::remove_dir_all(tree.parent().unwrap()).unwrap();
    }
}
