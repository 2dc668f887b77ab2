//! What each program of Rust has: it gives its checksum as the task's exit number.

#[cfg(target_arch = "wasm32")]
#[link(wasm_import_module = "wasi_snapshot_preview1")]
extern "C" {
    pub fn proc_exit(number: u32) -> !;
}

macro_rules! program {
    ($checksum:expr) => {
        #[cfg(target_arch = "wasm32")]
        #[no_mangle]
        pub extern "C" fn _start() {
            unsafe { program::proc_exit($checksum) }
        }

        #[allow(dead_code)]
        fn main() {
            println!("{}", $checksum);
        }
    };
}
