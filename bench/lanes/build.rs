//! Links both builds of the units: BENCH_LANES names the folder of libv2.a and libv3.a, which run.sh makes.

fn main() {
    println!("cargo::rerun-if-env-changed=BENCH_LANES");
    if let Ok(folder) = std::env::var("BENCH_LANES") {
        println!("cargo::rustc-link-search=native={folder}");
        for build in ["v2", "v3"] {
            println!("cargo::rerun-if-changed={folder}/lib{build}.a");
            println!("cargo::rustc-link-lib=static={build}");
        }
    }
}
