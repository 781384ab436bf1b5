// Where the linker finds libcapi.a: in TAXEEDHUUL_ARCHIVE, or where .ci/archive puts it for this processor.
fn main() {
    let folder = std::env::var("TAXEEDHUUL_ARCHIVE").unwrap_or_else(|_| {
        let package = std::env::var("CARGO_MANIFEST_DIR").unwrap();
        let processor = std::env::var("CARGO_CFG_TARGET_ARCH").unwrap();
        match processor.as_str() {
            "x86_64" => format!("{package}/../../target/staticlib"),
            _ => format!("{package}/../../target/native"),
        }
    });
    println!("cargo:rerun-if-env-changed=TAXEEDHUUL_ARCHIVE");
    println!("cargo:rerun-if-changed={folder}/libcapi.a");
    println!("cargo:rustc-link-search=native={folder}");
    println!("cargo:rustc-link-lib=static=capi");
}
