//! For the crate `log`: the words are checked and dropped.

#[macro_export]
macro_rules! debug {
    ($($words:tt)*) => {
        if false {
            let _ = format!($($words)*);
        }
    };
}

#[macro_export]
macro_rules! warn {
    ($($words:tt)*) => {
        $crate::debug!($($words)*)
    };
}
