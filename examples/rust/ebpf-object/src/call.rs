//! Calls with room for what they write: rows, texts and bytes.
use crate::contents::Contents;
use crate::error::Error;
use ebpf_sys as sys;
use std::ffi::{c_char, CStr};

/// Where a call lists rows.
pub(crate) struct Room<R> {
    pub rows: *mut R,
    pub rows_room: usize,
    pub text: *mut c_char,
    pub text_room: usize,
    pub counts: *mut sys::ebpf_counts,
}

/// Where a call writes values of one kind.
pub(crate) struct Space<T> {
    pub at: *mut T,
    pub room: usize,
    pub count: *mut usize,
}

/// Rows, and the text that they point into.
pub(crate) struct List<R> {
    rows: Vec<R>,
    text: Vec<u8>,
}

/// Gives the row of an index, and returns its name, which the handle keeps.
pub(crate) type At<R> = unsafe extern "C" fn(*const sys::ebpf_handle, usize, *mut R) -> *const c_char;

impl Contents {
    /// The outcome of a call that was given this handle and a name.
    pub(crate) fn outcome(&self, number: u32, name: &str) -> Result<(), Error> {
        match number {
            sys::EBPF_DONE => Ok(()),
            number => Err(self.last_error(number, name)),
        }
    }

    /// The error of the last call; `name` is what that was given.
    pub(crate) fn last_error(&self, number: u32, name: &str) -> Error {
        // SAFETY: the handle is open, and what it keeps of the error stays until the next call.
        let error = unsafe { &*sys::ebpf_last_error(self.as_raw()) };
        // SAFETY: as above; a zero byte is behind the name.
        let about = unsafe { CStr::from_ptr(error.name) }.to_string_lossy();
        Error::of(number, if about.is_empty() { name } else { &about }, &error.refusal)
    }

    /// The values that a call writes, which is asked again until there is room.
    pub(crate) fn filled<T: Copy + Default>(
        &self,
        name: &str,
        mut call: impl FnMut(&Space<T>) -> u32,
    ) -> Result<Vec<T>, Error> {
        let mut values = Vec::new();
        loop {
            let mut count = 0;
            let number = call(&Space { at: values.as_mut_ptr(), room: values.len(), count: &mut count });
            if number != sys::EBPF_ROOM {
                self.outcome(number, name)?;
            }
            values.resize(count, T::default());
            if number == sys::EBPF_DONE {
                return Ok(values);
            }
        }
    }

    /// The rows that a call lists, which is asked again until there is room.
    pub(crate) fn listed<R: Copy + Default>(&self, mut call: impl FnMut(&Room<R>) -> u32) -> Result<List<R>, Error> {
        let mut list = List { rows: Vec::new(), text: Vec::new() };
        loop {
            let mut counts = sys::ebpf_counts::default();
            let number = call(&list.room(&mut counts));
            if number != sys::EBPF_ROOM {
                self.outcome(number, "")?;
            }
            list.rows.resize(counts.rows, R::default());
            list.text.resize(counts.text, 0);
            if number == sys::EBPF_DONE {
                return Ok(list);
            }
        }
    }

    /// The bytes that a call returned, which the handle keeps; none where it returned null and refused nothing.
    pub(crate) fn kept(&self, name: &str, at: *const u8, len: usize) -> Result<Option<Vec<u8>>, Error> {
        if at.is_null() {
            // SAFETY: the handle is open, and what it keeps of the error stays until the next call.
            let number = unsafe { (*sys::ebpf_last_error(self.as_raw())).number };
            return self.outcome(number, name).map(|()| None);
        }
        // SAFETY: the handle keeps so many bytes there until a call that changes the object.
        Ok(Some(unsafe { std::slice::from_raw_parts(at, len) }.to_vec()))
    }

    /// A value of each of so many rows, which the handle keeps; `value` is given the row, its name, and where this is.
    pub(crate) fn rows<R: Default, V>(
        &self,
        count: usize,
        at: At<R>,
        value: impl Fn(&R, String, *const c_char) -> V,
    ) -> Result<Vec<V>, Error> {
        let mut values = Vec::new();
        for index in 0..count {
            let mut row = R::default();
            // SAFETY: the handle is open, and the row is ours.
            let name = unsafe { at(self.as_raw(), index, &mut row) };
            if name.is_null() {
                return Err(self.last_error(sys::EBPF_NO_ROW, ""));
            }
            // SAFETY: the name ends in a zero byte, and the handle keeps it until a call that changes the object.
            let text = unsafe { CStr::from_ptr(name) }.to_string_lossy().into_owned();
            values.push(value(&row, text, name));
        }
        Ok(values)
    }
}

impl<R> List<R> {
    fn room(&mut self, counts: &mut sys::ebpf_counts) -> Room<R> {
        Room {
            rows: self.rows.as_mut_ptr(),
            rows_room: self.rows.len(),
            text: self.text.as_mut_ptr().cast(),
            text_room: self.text.len(),
            counts,
        }
    }

    /// A value of each row; the function it is made by gets the texts of places in the list's text.
    pub fn values<V>(&self, value: impl Fn(&R, &dyn Fn(usize, usize) -> String) -> V) -> Vec<V> {
        let text = |at: usize, len: usize| String::from_utf8_lossy(&self.text[at..at + len]).into_owned();
        self.rows.iter().map(|row| value(row, &text)).collect()
    }
}
