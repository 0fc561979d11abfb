// JSON_ARCHIVE is the folder that has libjson_exports.a, by its whole path.
fn main() {
    println!("cargo:rerun-if-env-changed=JSON_ARCHIVE");
    let folder = std::env::var("JSON_ARCHIVE").expect(
        "JSON_ARCHIVE is not set: it is the folder of libjson_exports.a (tools/json_speed/README.md)",
    );
    println!("cargo:rerun-if-changed={folder}/libjson_exports.a");
    println!("cargo:rustc-link-search=native={folder}");
    println!("cargo:rustc-link-lib=static=json_exports");
}
