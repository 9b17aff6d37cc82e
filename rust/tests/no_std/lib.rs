//! The checks as a static library with no std: for a machine that is no x86-64, where `main.c` runs them under an emulator.
#![no_std]

#[path = "../checks/mod.rs"]
mod checks;

extern "C" {
    fn failed() -> !;
}

#[panic_handler]
fn panic(_: &core::panic::PanicInfo) -> ! {
    unsafe { failed() }
}

macro_rules! run {
    ($($name:ident),*) => {{
        let mut count = 0;
        $(
            checks::$name();
            count += 1;
        )*
        count
    }};
}

macro_rules! as_function {
    ($($name:ident),*) => {
        /// Runs every check, and answers how many there were. One that fails does not return.
        #[no_mangle]
        pub extern "C" fn run_checks() -> u32 {
            run!($($name),*)
        }
    };
}

for_each_check!(as_function);
