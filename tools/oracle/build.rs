//! With IPM_C, the path of libipm_c.a, the static library is linked and compared too.

fn main() {
    println!("cargo::rerun-if-env-changed=IPM_C");
    if let Ok(path) = std::env::var("IPM_C") {
        println!("cargo::rerun-if-changed={path}");
        println!("cargo::rustc-link-arg={path}");
        println!("cargo::rustc-cfg=ipm_c");
    }
}
