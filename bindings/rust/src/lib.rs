//! argus for Rust: a world of guardians, in memory or over a folder of files, by the static library argus_c.
//!
//! Ownership keeps what the exports require: a handle lies in a box of its own, and `&mut self` has it alone.
mod exports;
mod fault;
mod folder;

use exports::*;
use fault::checked;
pub use fault::Fault;
use std::path::{Path, PathBuf};

/// An object: its guardian, and its number there.
pub type Object = (u32, u32);

/// New guardians of a setup. It ends when it is dropped, and stays on its thread.
///
/// With `over` and `reopen` the store of guardian N is the file gN.json of a folder, which one world at a time has. An
/// answer is given once the files hold what it says.
pub struct World {
    handle: Box<Handle>,
    folder: Option<PathBuf>,
}

/// The text that the call writes; none if there is nothing to tell.
fn text(mut call: impl FnMut(*mut u8, usize, &mut usize) -> u32) -> Result<Option<String>, Fault> {
    let (mut place, mut len) = (vec![0; 64], 0);
    loop {
        match call(place.as_mut_ptr(), place.len(), &mut len) {
            2 => return Ok(None),
            4 => place.resize(len, 0),
            code => {
                checked(code)?;
                place.truncate(len);
                return Ok(Some(String::from_utf8(place).expect("answers and bases are UTF-8")));
            }
        }
    }
}

// SAFETY of each call: the handle is the box's, which `&mut self` has alone; pointer and length are those of one slice.
impl World {
    fn closed(folder: Option<&Path>) -> World {
        let handle = Box::new(Handle { mark: 0, error: 0, seat: std::ptr::null_mut() });
        World { handle, folder: folder.map(Path::to_path_buf) }
    }

    fn opened(folder: Option<&Path>, setup: &[u8]) -> Result<World, Fault> {
        let mut world = World::closed(folder);
        checked(unsafe { argus_c_open(&mut world.handle, setup.as_ptr(), setup.len()) })?;
        world.keep()?;
        Ok(world)
    }

    /// In memory.
    pub fn open(setup: &[u8]) -> Result<World, Fault> {
        World::opened(None, setup)
    }

    fn made(&mut self, code: u32) -> Result<String, Fault> {
        checked(code)?;
        self.keep()?;
        let told = text(|place, room, len| unsafe { argus_c_answer(&mut self.handle, place, room, len) })?;
        told.ok_or(Fault::Other(2))
    }

    /// Makes the step that the line spells, and gives its answer.
    pub fn step(&mut self, line: &[u8]) -> Result<String, Fault> {
        let code = unsafe { argus_c_step(&mut self.handle, line.as_ptr(), line.len()) };
        self.made(code)
    }

    pub fn call(&mut self, action: &str, guardian: u32) -> Result<String, Fault> {
        let code = unsafe { argus_c_call(&mut self.handle, action.as_ptr(), action.len(), guardian) };
        self.made(code)
    }

    pub fn op(&mut self, action: &str, object: Object, wanted: &str) -> Result<String, Fault> {
        let (a, w) = (action.as_bytes(), wanted.as_bytes());
        let code = unsafe { argus_c_op(&mut self.handle, a.as_ptr(), a.len(), object.0, object.1, w.as_ptr(), w.len()) };
        self.made(code)
    }

    /// The base of an object as JSON; none if there is no such object.
    pub fn base(&mut self, object: Object) -> Result<Option<String>, Fault> {
        text(|place, room, len| unsafe { argus_c_base(&mut self.handle, object.0, object.1, place, room, len) })
    }
}

macro_rules! of_guardian {
    ($($name:ident $export:ident),*) => { impl World { $(
        pub fn $name(&mut self, guardian: u32) -> Result<String, Fault> {
            let code = unsafe { $export(&mut self.handle, guardian) };
            self.made(code)
        })*
    } };
}

of_guardian!(top argus_c_top, crash argus_c_crash, recover argus_c_recover);

macro_rules! of_action {
    ($($name:ident $export:ident ($($guardian:ident)?)),*) => { impl World { $(
        pub fn $name(&mut self, $($guardian: u32,)? action: &str) -> Result<String, Fault> {
            let code = unsafe { $export(&mut self.handle, $($guardian,)? action.as_ptr(), action.len()) };
            self.made(code)
        })*
    } };
}

of_action!(nest argus_c_nest (), commit argus_c_commit (), abort argus_c_abort (), close_top argus_c_close_top (),
    decide argus_c_decide (), prepare argus_c_prepare (guardian), tell argus_c_tell (guardian));

impl Drop for World {
    fn drop(&mut self) {
        unsafe { argus_c_close(&mut self.handle) };
    }
}
