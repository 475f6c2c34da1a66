//! A file's extended attributes, among them its access list: permissions that the mode alone does not tell.
use std::ffi::{c_char, c_int, c_void, CStr};
use std::fs::File;
use std::io;
use std::os::fd::AsRawFd;

/// The attribute that is an access list. A file that lost it could be open to more people than before.
const ACCESS_LIST: &CStr = c"system.posix_acl_access";

// The C library's, which Rust's own is linked with.
extern "C" {
    fn flistxattr(fd: c_int, names: *mut c_char, size: usize) -> isize;
    fn fgetxattr(fd: c_int, name: *const c_char, value: *mut c_void, size: usize) -> isize;
    fn fsetxattr(fd: c_int, name: *const c_char, value: *const c_void, size: usize, flags: c_int) -> c_int;
    fn fremovexattr(fd: c_int, name: *const c_char) -> c_int;
}

/// No attribute and no list of names is longer (xattr(7)).
const LONGEST: usize = 65_536;
/// ENODATA of Linux.
const NO_SUCH_ATTRIBUTE: i32 = 61;

fn filled(length: isize, mut bytes: Vec<u8>) -> io::Result<Vec<u8>> {
    let length = usize::try_from(length).map_err(|_| io::Error::last_os_error())?;
    bytes.truncate(length);
    Ok(bytes)
}

fn names(file: &File) -> io::Result<Vec<u8>> {
    let mut names = vec![0; LONGEST];
    // SAFETY: the buffer is as long as is said.
    let length = unsafe { flistxattr(file.as_raw_fd(), names.as_mut_ptr().cast(), names.len()) };
    filled(length, names)
}

fn copy_one(from: &File, to: &File, name: &CStr) -> io::Result<()> {
    let mut value = vec![0; LONGEST];
    // SAFETY: the name ends in a zero, and the buffer is as long as is said.
    let length = unsafe { fgetxattr(from.as_raw_fd(), name.as_ptr(), value.as_mut_ptr().cast(), value.len()) };
    let value = filled(length, value)?;
    // SAFETY: the same.
    match unsafe { fsetxattr(to.as_raw_fd(), name.as_ptr(), value.as_ptr().cast(), value.len(), 0) } {
        0 => Ok(()),
        _ => Err(io::Error::last_os_error()),
    }
}

/// Takes away the access list that a new file has from its folder.
fn remove_access_list(file: &File) -> io::Result<()> {
    // SAFETY: the name ends in a zero.
    let removed = unsafe { fremovexattr(file.as_raw_fd(), ACCESS_LIST.as_ptr()) };
    match io::Error::last_os_error() {
        _ if removed == 0 => Ok(()),
        e if e.raw_os_error() == Some(NO_SUCH_ATTRIBUTE) || e.kind() == io::ErrorKind::Unsupported => Ok(()),
        e => Err(e),
    }
}

/// Gives one file the attributes of another. That both have the same access list, or none, is certain; other attributes are copied as far as
/// the system lets us.
pub fn copy(from: &File, to: &File) -> io::Result<()> {
    let names = match names(from) {
        Err(e) if e.kind() == io::ErrorKind::Unsupported => return Ok(()),
        other => other?,
    };
    let names: Vec<&CStr> = names.split_inclusive(|byte| *byte == 0).filter_map(|name| CStr::from_bytes_with_nul(name).ok()).collect();
    let (lists, others): (Vec<&CStr>, Vec<&CStr>) = names.into_iter().partition(|name| *name == ACCESS_LIST);
    others.iter().for_each(|name| drop(copy_one(from, to, name)));
    if lists.is_empty() {
        return remove_access_list(to);
    }
    copy_one(from, to, ACCESS_LIST)
}
