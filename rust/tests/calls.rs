//! The checks of the wrapper, each a test.

mod checks;

macro_rules! tests {
    ($($name:ident),*) => {
        $(
            #[test]
            fn $name() {
                checks::$name();
            }
        )*
    };
}

for_each_check!(tests);
