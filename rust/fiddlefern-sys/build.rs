//! Has the archive of the exported calls linked. It is looked for in the folder that FIDDLEFERN_LIB_DIR names, where that is set and not
//! empty, else where `make lib` leaves it. Without an archive the crate can be checked and documented.
use std::env;
use std::path::Path;

/// The environment variable that names the folder of the archive.
const NAMED: &str = "FIDDLEFERN_LIB_DIR";

/// The folder of the repository that `make lib` builds the archive into, from this crate's folder.
const BUILT: &str = "../../target/staticlib";

fn main() {
    println!("cargo::rerun-if-env-changed={NAMED}");
    let here = env::var_os("CARGO_MANIFEST_DIR").expect("cargo sets CARGO_MANIFEST_DIR");
    if let Err(refused) = for_this_target().and_then(|()| link(Path::new(&here))) {
        println!("cargo::error={refused}");
    }
}

/// Refuses a target that the archive is not for.
fn for_this_target() -> Result<(), String> {
    let told = |what: &str| env::var(format!("CARGO_CFG_TARGET_{what}")).unwrap_or_default();
    let is = (told("ARCH"), told("OS"), told("POINTER_WIDTH"));
    if (is.0.as_str(), is.1.as_str(), is.2.as_str()) == ("x86_64", "linux", "64") {
        return Ok(());
    }
    Err(format!(
        "Fiddlefern is there for x86-64 Linux alone (target_arch x86_64, target_os linux, target_pointer_width 64), and the target {} is {}, {}, {}",
        env::var("TARGET").unwrap_or_default(),
        is.0,
        is.1,
        is.2
    ))
}

/// Has the archive linked, and says what to do where it is not there.
fn link(here: &Path) -> Result<(), String> {
    let named = env::var_os(NAMED).filter(|named| !named.is_empty());
    let folder = here.join(named.as_deref().unwrap_or(BUILT.as_ref()));
    let archive = folder.join("libfiddlefern.a");
    // While there is none, cargo asks anew each time, and so notices one that comes.
    println!("cargo::rerun-if-changed={}", archive.display());
    if archive.is_file() {
        // Without the dots of its way from here.
        let folder = folder.canonicalize().expect("the folder has the archive");
        println!("cargo::rustc-link-search=native={}", folder.display());
    } else if named.is_some() {
        // A folder that is named has to have it.
        return Err(missing(here, &archive));
    } else {
        // Not an error: cargo check and cargo doc need no archive. Where a crate is built, rustc misses it, and cargo repeats this.
        println!("cargo::warning={}", missing(here, &archive));
    }
    println!("cargo::rustc-link-lib=static=fiddlefern");
    Ok(())
}

/// What to do where the archive is not there.
fn missing(here: &Path, archive: &Path) -> String {
    format!(
        "{} is not there: run `make lib` at the root of the repository, or set {NAMED} to the absolute path of the folder that has libfiddlefern.a (a relative one is taken from {})",
        archive.display(),
        here.display()
    )
}
