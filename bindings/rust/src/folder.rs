//! Worlds over a folder: the store of guardian N is the file gN.json.
use crate::exports::{argus_c_changed, argus_c_close, argus_c_kept, argus_c_reopen, argus_c_store};
use crate::fault::{checked, Fault};
use crate::{text, World};
use std::fs::{self, File};
use std::io::{self, ErrorKind, Write};
use std::path::Path;

/// Puts the text in place of the file: a stop leaves the old file or the new one.
fn replace(folder: &Path, name: &str, text: &str) -> io::Result<()> {
    let made = folder.join(format!("{name}.new"));
    let mut file = File::create(&made)?;
    file.write_all(text.as_bytes())?;
    file.sync_all()?;
    fs::rename(&made, folder.join(name))?;
    File::open(folder)?.sync_all()
}

// SAFETY of each call is that of the module above.
impl World {
    /// Over a folder that has no stores yet.
    pub fn over(folder: &Path, setup: &[u8]) -> Result<World, Fault> {
        if folder.join("g1.json").try_exists()? {
            return Err(Fault::Files(ErrorKind::AlreadyExists));
        }
        World::opened(Some(folder), setup)
    }

    /// The guardians of the setup, going on from the stores of the folder. What was prepared is settled.
    pub fn reopen(folder: &Path, setup: &[u8]) -> Result<World, Fault> {
        let mut stores = Vec::new();
        loop {
            let path = folder.join(format!("g{}.json", stores.len() + 1));
            if !path.try_exists()? {
                break;
            }
            stores.push(fs::read(path)?);
        }
        let array = [b"[", stores.join(&b","[..]).as_slice(), b"]"].concat();
        let (mut world, n) = (World::closed(Some(folder)), setup.len());
        checked(unsafe { argus_c_reopen(&mut world.handle, setup.as_ptr(), n, array.as_ptr(), array.len()) })?;
        world.keep()?;
        Ok(world)
    }

    /// Writes each store that may have changed.
    pub(crate) fn keep(&mut self) -> Result<(), Fault> {
        let Some(folder) = self.folder.take() else { return Ok(()) };
        let kept = self.keep_in(&folder);
        self.folder = Some(folder);
        if kept.is_err() {
            unsafe { argus_c_close(&mut self.handle) };
        }
        kept
    }

    fn keep_in(&mut self, folder: &Path) -> Result<(), Fault> {
        let mut guardian = 0;
        while unsafe { argus_c_changed(&mut self.handle, &mut guardian) } == 0 {
            let told = text(|place, room, len| unsafe { argus_c_store(&mut self.handle, guardian, place, room, len) })?;
            replace(folder, &format!("g{guardian}.json"), &told.ok_or(Fault::Other(2))?)?;
            checked(unsafe { argus_c_kept(&mut self.handle, guardian) })?;
        }
        Ok(())
    }
}
