//! Starting the engine: on x86-64 directly, elsewhere as a kit for that machine starts programs,
//! under the kit's emulator and loader.

use std::env;
use std::ffi::OsString;
use std::path::{Path, PathBuf};
use std::process::Command;

use crate::Broken;

/// The variable that names another engine.
const ENGINE: &str = "PEDAL_ENGINE";
/// The variable that names the kit's folder.
const KIT: &str = "RATTLE_HOME";
/// The engine, at the root of the repository.
const PROGRAM: &str = "target/bin/engine";
/// The kind of machine that runs the engine directly.
const OWN: &str = "x86_64";

/// What to do about an engine that does not work.
pub(crate) const REMEDY: &str = "`tools/prove engine` at the root of the repository makes it, and \
                                 PEDAL_ENGINE names another one";

/// The engine's path: the repository's, known since this crate was built, unless another one is
/// named.
pub(crate) fn engine() -> PathBuf {
    match env::var_os(ENGINE).filter(|name| !name.is_empty()) {
        Some(name) => std::path::absolute(&name).unwrap_or_else(|_| name.into()),
        None => root().join(PROGRAM),
    }
}

/// The repository, two folders above this crate.
fn root() -> PathBuf {
    let own = Path::new(env!("CARGO_MANIFEST_DIR"));
    own.ancestors().nth(2).unwrap_or(own).to_path_buf()
}

/// The command that starts an engine on this machine, if all is there that it needs.
pub(crate) fn command(engine: &Path) -> Result<Command, Broken> {
    let machine = env::consts::ARCH;
    let kit = match machine {
        OWN => PathBuf::new(),
        _ => kit(env::var_os(KIT), env::var_os("PATH"))?,
    };
    command_on(machine, &kit, engine)
}

/// The command that starts an engine on a kind of machine, if all is there that it needs.
pub(crate) fn command_on(machine: &str, kit: &Path, engine: &Path) -> Result<Command, Broken> {
    let words = words(machine, kit, engine);
    check(machine, &words, engine)?;
    let mut command = Command::new(&words[0]);
    command.args(&words[1..]);
    for name in emulator_settings(env::vars_os().map(|(name, _)| name)) {
        command.env_remove(name);
    }
    Ok(command)
}

/// The words that start an engine on a kind of machine, with a kit for it where it needs one.
fn words(machine: &str, kit: &Path, engine: &Path) -> Vec<OsString> {
    if machine == OWN {
        return vec![engine.into()];
    }
    let tools = kit.join("on").join(machine).join("toolchain");
    vec![
        tools.join("bin/qemu-x86_64").into(),
        tools.join("lib/ld-linux-x86-64.so.2").into(),
        "--library-path".into(),
        tools.join("lib").into(),
        engine.into(),
    ]
}

/// Passes words that name an engine that is there and, before it, files of a kit that are.
fn check(machine: &str, words: &[OsString], engine: &Path) -> Result<(), Broken> {
    if !engine.is_file() {
        let engine = engine.display();
        return Err(Broken::new(format!(
            "the engine {engine} is missing; {REMEDY}"
        )));
    }
    let tools = &words[..2.min(words.len() - 1)];
    match tools.iter().map(Path::new).find(|file| !file.is_file()) {
        Some(file) => Err(Broken::new(format!(
            "the kit has no {}, and this machine ({machine}) runs the engine under it: let {KIT} \
             name a kit for this machine, or put its rt on the path",
            file.display()
        ))),
        None => Ok(()),
    }
}

/// The kit's folder: the one that is named, or the one that `rt` on the path stands in, links
/// followed.
fn kit(named: Option<OsString>, path: Option<OsString>) -> Result<PathBuf, Broken> {
    if let Some(named) = named.filter(|named| !named.is_empty()) {
        return Ok(named.into());
    }
    let path = path.unwrap_or_default();
    let mut programs = env::split_paths(&path).map(|folder| folder.join("rt"));
    let program = programs.find(|program| program.is_file());
    let program = program.and_then(|program| program.canonicalize().ok());
    let kit = program
        .as_deref()
        .and_then(|program| program.ancestors().nth(2));
    kit.map(Path::to_path_buf).ok_or_else(|| {
        Broken::new(format!(
            "rt is not on the path, and the engine runs under its kit's emulator here: put the \
             kit's rt on the path, or let {KIT} name the kit's folder"
        ))
    })
}

/// The variables among these that would change what the emulator does.
fn emulator_settings(names: impl Iterator<Item = OsString>) -> Vec<OsString> {
    let is_setting = |name: &OsString| name.as_encoded_bytes().starts_with(b"QEMU_");
    names.filter(is_setting).collect()
}

#[cfg(test)]
mod tests {
    use std::fs;

    use super::*;
    use crate::process_tests::{folder, put};

    /// The command line on both kinds of machine.
    #[test]
    fn command_lines() {
        let (kit, engine) = (
            Path::new("/kit"),
            Path::new("/repository/target/bin/engine"),
        );
        assert_eq!(
            words("x86_64", kit, engine),
            ["/repository/target/bin/engine"]
        );
        assert_eq!(
            words("aarch64", kit, engine),
            [
                "/kit/on/aarch64/toolchain/bin/qemu-x86_64",
                "/kit/on/aarch64/toolchain/lib/ld-linux-x86-64.so.2",
                "--library-path",
                "/kit/on/aarch64/toolchain/lib",
                "/repository/target/bin/engine",
            ]
        );
    }

    /// The kit is found from `rt` on the path, through links, or by its variable.
    #[cfg(unix)]
    #[test]
    fn kits() {
        use std::os::unix::fs::symlink;
        let folder = folder("kits");
        put(&folder, "kit/bin/rt", "");
        for name in ["near", "far", "none", "folder/rt"] {
            fs::create_dir_all(folder.join(name)).unwrap();
        }
        symlink("../kit/bin/rt", folder.join("near/rt")).unwrap();
        symlink(folder.join("near/rt"), folder.join("far/rt")).unwrap();
        let found = |names: &[&str]| {
            let path = env::join_paths(names.iter().map(|name| folder.join(name)));
            kit(None, path.ok())
        };
        let own = Ok(folder.join("kit"));
        assert_eq!(found(&["kit/bin"]), own);
        assert_eq!(found(&["near"]), own);
        assert_eq!(found(&["none", "nowhere", "folder", "far"]), own);
        let named = kit(Some("/other".into()), Some(folder.join("near").into()));
        assert_eq!(named, Ok("/other".into()));
        let empty = kit(Some("".into()), Some(folder.join("near").into()));
        assert_eq!(empty, own);
        let words = found(&["none", "nowhere", "folder"])
            .unwrap_err()
            .to_string();
        assert!(words.starts_with("rt is not on the path"));
        assert_eq!(kit(None, None).unwrap_err().to_string(), words);
        fs::remove_dir_all(folder).unwrap();
    }

    /// What is missing is named: the engine, the emulator, and the loader.
    #[test]
    fn missing_files() {
        let kit = folder("missing");
        let engine = kit.join("engine");
        let said = || {
            let words = words("aarch64", &kit, &engine);
            check("aarch64", &words, &engine).map_err(|broken| broken.to_string())
        };
        let name = engine.display();
        assert_eq!(
            said(),
            Err(format!("the engine {name} is missing; {REMEDY}"))
        );
        put(&kit, "engine", "");
        let emulator = "on/aarch64/toolchain/bin/qemu-x86_64";
        let loader = "on/aarch64/toolchain/lib/ld-linux-x86-64.so.2";
        for file in [emulator, loader] {
            let name = kit.join(file).display().to_string();
            let words = said().unwrap_err();
            assert!(words.starts_with(&format!("the kit has no {name}, and this machine")));
            put(&kit, file, "");
        }
        assert_eq!(said(), Ok(()));
        let words = words("x86_64", &kit, &engine);
        assert_eq!(check("x86_64", &words, &engine), Ok(()));
        fs::remove_dir_all(kit).unwrap();
    }

    /// The emulator's variables are the ones that are left out.
    #[test]
    fn settings_of_the_emulator() {
        let names = ["PATH", "QEMU_STRACE", "qemu_x", "QEMU", "QEMU_"].map(OsString::from);
        let settings = emulator_settings(names.into_iter());
        assert_eq!(settings, ["QEMU_STRACE", "QEMU_"]);
    }
}
