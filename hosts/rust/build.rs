// Links the proved library and the helpers of hosts/c. ICOTABLE_LIB names the folder of an installed libicotable, which has both. Without it the
// proved library is that of this repository or of a release archive, and the helpers are compiled by the C compiler (CC, or cc). Where there is
// neither, pkg-config says where libicotable is installed.
use std::path::{Path, PathBuf};
use std::process::{Command, Output};

fn main() {
    println!("cargo:rerun-if-env-changed=ICOTABLE_LIB");
    println!("cargo:rerun-if-env-changed=PKG_CONFIG_PATH");
    let top = PathBuf::from(variable("CARGO_MANIFEST_DIR")).join("../..");
    let proved = top.join(if top.join("crates.txt").exists() { "target/staticlib" } else { "proved" });
    if let Ok(folder) = std::env::var("ICOTABLE_LIB") {
        installed(Path::new(&folder));
    } else if proved.join("libicotable.a").exists() {
        compiled(&top, &proved);
    } else {
        installed(&found(&proved));
    }
    println!("cargo:rustc-link-lib=m");
    println!("cargo:rustc-link-lib=pthread");
}

fn variable(name: &str) -> String {
    std::env::var(name).expect("cargo sets it")
}

fn run(command: &mut Command) -> Output {
    let done = command.output().unwrap_or_else(|error| panic!("{command:?}: {error}"));
    assert!(done.status.success(), "{command:?}: {}", String::from_utf8_lossy(&done.stderr));
    done
}

// An installed library, which holds the helpers; static where both are there.
fn installed(folder: &Path) {
    let fixed = folder.join("libicotable.a");
    assert!(fixed.exists() || folder.join("libicotable.so").exists(), "there is no libicotable in {}", folder.display());
    println!("cargo:rerun-if-changed={}", fixed.display());
    println!("cargo:rustc-link-search=native={}", folder.display());
    println!("cargo:rustc-link-lib={}=icotable", if fixed.exists() { "static" } else { "dylib" });
}

// Where pkg-config finds one of this package's minor version: another may have other structs.
fn found(proved: &Path) -> PathBuf {
    let nothing = format!("there is no libicotable.a in {}, which `make -C hosts/c lib` proves and builds", proved.display());
    let ask = |what: &str| {
        let done = Command::new("pkg-config").args([what, "icotable"]).output().ok().filter(|done| done.status.success());
        let said = done.unwrap_or_else(|| panic!("{nothing}, and pkg-config does not know an installed one; ICOTABLE_LIB names its folder"));
        String::from_utf8_lossy(&said.stdout).trim().to_string()
    };
    let (version, wanted) = (ask("--modversion"), variable("CARGO_PKG_VERSION"));
    let minor = |version: &str| version.rsplit_once('.').map(|parts| parts.0.to_string());
    assert_eq!(minor(&version), minor(&wanted), "the version of the libicotable that is installed, and that of this package");
    PathBuf::from(ask("--variable=libdir"))
}

// The helpers that hosts/c/Makefile names, as a library in front of the proved one.
fn compiled(top: &Path, proved: &Path) {
    let (c, out) = (top.join("hosts/c"), PathBuf::from(variable("OUT_DIR")));
    let makefile = std::fs::read_to_string(c.join("Makefile")).expect("hosts/c/Makefile");
    let names = makefile.lines().find_map(|line| line.strip_prefix("HELPERS = ")).expect("the helpers' names");
    let objects: Vec<PathBuf> = names.split(' ').map(|name| object(top, &c.join(name).with_extension("c"), &out)).collect();
    let library = out.join("libicotable_helpers.a");
    let _ = std::fs::remove_file(&library);
    run(Command::new(std::env::var("AR").unwrap_or("ar".into())).arg("rcs").arg(&library).args(objects));
    for place in [&c, &top.join("include"), &proved.join("libicotable.a")] {
        println!("cargo:rerun-if-changed={}", place.display());
    }
    println!("cargo:rustc-link-search=native={}", out.display());
    println!("cargo:rustc-link-search=native={}", proved.display());
    println!("cargo:rustc-link-lib=static=icotable_helpers");
    println!("cargo:rustc-link-lib=static=icotable");
}

fn object(top: &Path, source: &Path, out: &Path) -> PathBuf {
    let object = out.join(source.file_name().expect("a name")).with_extension("o");
    let mut compiler = Command::new(std::env::var("CC").unwrap_or("cc".into()));
    compiler.args(["-std=c11", "-D_POSIX_C_SOURCE=200809L", "-O2", "-ffp-contract=off", "-fPIC", "-I"]).arg(top.join("include"));
    run(compiler.arg("-I").arg(top.join("hosts/c")).arg("-c").arg("-o").arg(&object).arg(source));
    object
}
