//! A build of the library loaded from its file, libcodeplug.so: the functions that are timed. They have to be those of this
//! bindings/c/include/codeplug.h, or the same under their former names. A library from before version 2.0.0 has none for legacy files.
//!
//! A library from before version 3.0.0 has no editions: its functions are called with the edition as one argument too many. By the calling
//! convention of x86-64 Linux that is harmless. The last argument stands in a register or a stack slot of its own, which such a function
//! does not look at; the others stand where they would without it; and the caller takes its slots off the stack again. It answers as by the
//! older edition.

use codeplug::c;
use std::ffi::{c_char, c_int, c_void, CStr, CString};
use std::mem::transmute;

extern "C" {
    fn dlopen(path: *const c_char, mode: c_int) -> *mut c_void;
    fn dlsym(library: *mut c_void, name: *const c_char) -> *mut c_void;
    fn dlerror() -> *const c_char;
}

/// RTLD_NOW; what the library defines stays its own.
const NOW: c_int = 2;

fn opened(path: &str) -> *mut c_void {
    // A name without a slash would be looked for among the system's libraries.
    let path = std::fs::canonicalize(path).expect("a library's file");
    let name = CString::new(path.into_os_string().into_encoded_bytes()).expect("a path");
    let library = unsafe { dlopen(name.as_ptr(), NOW) };
    assert!(!library.is_null(), "{:?}", unsafe {
        CStr::from_ptr(dlerror())
    });
    library
}

/// What a library from before version 1.0.0 calls a function.
const FORMER: [(&str, &str); 5] = [
    ("codeplug_validate", "codeplug_judge"),
    ("codeplug_contact_prevalidated", "codeplug_contact_once"),
    ("codeplug_channel_prevalidated", "codeplug_channel_once"),
    ("codeplug_bank_prevalidated", "codeplug_bank_once"),
    (
        "codeplug_bank_entry_prevalidated",
        "codeplug_bank_entry_once",
    ),
];

fn find(library: *mut c_void, name: &str) -> Option<*mut c_void> {
    let name = CString::new(name).expect("a name");
    let found = unsafe { dlsym(library, name.as_ptr()) };
    (!found.is_null()).then_some(found)
}

fn symbol(library: *mut c_void, name: &str) -> *mut c_void {
    let former = FORMER.iter().find(|(now, _)| *now == name);
    find(library, name)
        .or_else(|| find(library, former?.1))
        .unwrap_or_else(|| panic!("the library has no {name}"))
}

macro_rules! functions {
    (
        always { $($name:ident($($type:ty),*) -> $answer:ty;)* }
        maybe { $($maybe:ident($($maybe_type:ty),*) -> $maybe_answer:ty;)* }
    ) => {
        pub struct Library {
            $(pub $name: unsafe extern "C" fn($($type),*) -> $answer,)*
            $(pub $maybe: Option<unsafe extern "C" fn($($maybe_type),*) -> $maybe_answer>,)*
        }

        /// The library that the program is linked with.
        pub static LINKED: Library = Library {
            $($name: c::$name,)*
            $($maybe: Some(c::$maybe),)*
        };

        impl Library {
            /// Loads a library for as long as the program runs.
            pub fn load(path: &str) -> &'static Library {
                let library = opened(path);
                // Each is declared as bindings/rust/src/c.rs declares it.
                Box::leak(Box::new(Library {
                    $($name: unsafe {
                        transmute::<*mut c_void, unsafe extern "C" fn($($type),*) -> $answer>(symbol(library, stringify!($name)))
                    },)*
                    $($maybe: find(library, stringify!($maybe)).map(|found| unsafe {
                        transmute::<*mut c_void, unsafe extern "C" fn($($maybe_type),*) -> $maybe_answer>(found)
                    }),)*
                }))
            }
        }
    };
}

functions! {
    always {
        codeplug_validate(*const u8, usize, u32) -> c::ValidateAnswer;
        codeplug_contact_prevalidated(*const u8, usize, usize, *mut u8, usize, u32) -> c::ContactAnswer;
        codeplug_channel_prevalidated(*const u8, usize, usize, *mut u8, usize) -> c::ChannelAnswer;
        codeplug_bank_prevalidated(*const u8, usize, usize, *mut u8, usize) -> c::BankAnswer;
        codeplug_bank_entry_prevalidated(*const u8, usize, usize, usize) -> c::BankEntryAnswer;
        codeplug_encode_callsign(*const u8, usize, u32) -> c::EncodeAnswer;
        codeplug_decode_address(u64, *mut u8, usize, u32) -> c::DecodeAnswer;
        codeplug_edit(*mut u8, usize, usize, *mut u8, usize, usize, usize, usize, usize, *const u8, usize, u32) -> c::EditAnswer;
        codeplug_undo(*mut u8, usize, usize, *mut u8, usize, usize, u32) -> c::EditAnswer;
    }
    maybe {
        codeplug_version() -> u32;
        codeplug_validate_legacy(*const u8, usize, u32) -> c::ValidateAnswer;
        codeplug_migrate(*mut u8, usize, u32) -> c::ValidateAnswer;
    }
}

impl Library {
    /// The number before the first point of its version; 0 for a library from before 1.0.0, which does not tell it.
    pub fn major_version(&self) -> u32 {
        self.codeplug_version
            .map_or(0, |version| unsafe { version() } >> 16)
    }
}
