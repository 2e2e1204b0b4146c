//! Writes the two columns of Table 1 that the plain implementation reads, as static arrays.

use std::{env, fs, path::Path};

fn main() {
    let table = second::table::table();
    let column =
        |name: &str, figures: &[i64]| format!("pub static {name}: [u32; 1801] = {figures:?};\n");
    let text = column("HEAT", &table.heat) + &column("PSI", &table.psi);
    let folder = env::var("OUT_DIR").expect("cargo names a folder to write to");
    fs::write(Path::new(&folder).join("columns.rs"), text).expect("the folder can be written");
    println!("cargo:rerun-if-changed=build.rs");
}
