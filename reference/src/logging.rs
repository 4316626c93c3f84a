//! Empty logging and no failpoints. The arguments are still type-checked, never computed.

macro_rules! quiet {
    ($($arg:tt)*) => {
        if false {
            let _ = format!($($arg)*);
        }
    };
}

macro_rules! trace { ($($arg:tt)*) => { quiet!($($arg)*) }; }
macro_rules! debug { ($($arg:tt)*) => { quiet!($($arg)*) }; }
macro_rules! warn { ($($arg:tt)*) => { quiet!($($arg)*) }; }
macro_rules! error { ($($arg:tt)*) => { quiet!($($arg)*) }; }

macro_rules! io_fail {
    ($config:expr, $name:expr) => {
        let _ = (&$config, $name);
    };
}
