//! The function that libFuzzer and AFL++ call, for the part that the
//! environment variable `CORONAGAMBA_PART` names. `fuzz/run` builds it with
//! `--cfg fuzzing`; without a fuzzer there is nothing to run.

#![cfg_attr(fuzzing, no_main)]

#[cfg(fuzzing)]
mod entry {
    use compare::Part;
    use std::sync::OnceLock;

    fn chosen() -> &'static Part {
        static PART: OnceLock<&Part> = OnceLock::new();
        PART.get_or_init(|| {
            let name = std::env::var("CORONAGAMBA_PART").expect("CORONAGAMBA_PART names the part");
            fuzz::part(&name).expect("CORONAGAMBA_PART names a part")
        })
    }

    /// Compares library and reference on one input. A difference panics, and
    /// the fuzzer keeps the input.
    #[no_mangle]
    extern "C" fn LLVMFuzzerTestOneInput(data: *const u8, count: usize) -> i32 {
        let input = match count {
            0 => &[],
            // SAFETY: the fuzzer lends `count` bytes until this returns.
            _ => unsafe { std::slice::from_raw_parts(data, count) },
        };
        (chosen().compare)(input);
        0
    }
}

#[cfg(not(fuzzing))]
fn main() {
    eprintln!("target: built without a fuzzer; fuzz/run builds it with one");
    std::process::exit(2);
}
