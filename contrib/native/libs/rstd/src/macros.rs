#[macro_export]
macro_rules! rvec {
    (in $alloc:expr; $item:expr; $n:expr) => { $crate::vec::Vec::from_elem($alloc, $item, $n) };
    (in $alloc:expr; $($item:expr),* $(,)?) => {
        { let _ = $alloc; Ok::<_, $crate::alloc::AllocError>($crate::vec::Vec(::std::vec![$($item),*])) }
    };
    ($($rest:tt)*) => { ::std::vec![$($rest)*] };
}
#[macro_export]
macro_rules! rformat {
    (in $alloc:expr; $($rest:tt)*) => {
        { let _ = $alloc; Ok::<_, $crate::alloc::AllocError>($crate::string::String(::std::format!($($rest)*))) }
    };
    ($($rest:tt)*) => { ::std::format!($($rest)*) };
}
#[macro_export]
macro_rules! nothing {
    ($($rest:tt)*) => { () };
}
#[macro_export]
macro_rules! rprintln {
    ($rt:expr; $($rest:tt)*) => { { let _ = &$rt; ::std::println!($($rest)*); ::std::io::Result::Ok(()) } };
    ($($rest:tt)*) => { ::std::println!($($rest)*) };
}
#[macro_export]
macro_rules! rprint {
    ($rt:expr; $($rest:tt)*) => { { let _ = &$rt; ::std::print!($($rest)*); ::std::io::Result::Ok(()) } };
    ($($rest:tt)*) => { ::std::print!($($rest)*) };
}
#[macro_export]
macro_rules! reprintln {
    ($rt:expr; $($rest:tt)*) => { { let _ = &$rt; ::std::eprintln!($($rest)*); ::std::io::Result::Ok(()) } };
    ($($rest:tt)*) => { ::std::eprintln!($($rest)*) };
}
#[macro_export]
macro_rules! rassert { ($($rest:tt)*) => { ::std::assert!($($rest)*) }; }
#[macro_export]
macro_rules! rassert_eq { ($($rest:tt)*) => { ::std::assert_eq!($($rest)*) }; }
#[macro_export]
macro_rules! rassert_ne { ($($rest:tt)*) => { ::std::assert_ne!($($rest)*) }; }
#[macro_export]
macro_rules! rpanic { ($($rest:tt)*) => { ::std::panic!($($rest)*) }; }
#[macro_export]
macro_rules! rdebug_assert { ($($rest:tt)*) => { ::std::debug_assert!($($rest)*) }; }
