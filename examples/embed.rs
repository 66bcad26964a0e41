//! A safe wrapper of the engine's C library, and a session by it.
//!
//!     make lib && rustc -O --edition 2021 -o out/embed-rs examples/embed.rs -L out
//!     out/embed-rs examples/change-layer.toml
//!
//! What `overlayd.h` asks of a caller is what the types here give: a mount is owned, moved and
//! dropped, `&mut self` is one call at a time, and slices bring their lengths. So `Mount` is
//! `Send`, and threads share it by a `Mutex`.

use std::io::Read;

/// What came of what was asked, but for a reply: `enum ovl_status`.
#[derive(Clone, Debug, PartialEq, Eq)]
pub enum Failure {
    Fault(String),
    Status(i32),
}

/// A mount, which ends when it is dropped.
pub struct Mount {
    handle: Handle,
}

#[repr(C)]
struct Handle {
    at: *mut u8,
}

unsafe impl Send for Mount {}

#[link(name = "overlayd", kind = "static")]
extern "C" {
    fn ovl_mount_manifest(
        mount: *mut Handle,
        manifest: *const u8,
        manifest_length: usize,
        blobs: *const u8,
        blobs_length: usize,
        lengths: *const usize,
        count: usize,
        keys: *const [u8; 16],
        fault: *mut u8,
        room: usize,
        length: *mut usize,
    ) -> i32;
    fn ovl_unmount(mount: *mut Handle);
    fn ovl_attach(mount: *mut Handle, client: *mut u64) -> i32;
    fn ovl_detach(mount: *mut Handle, client: u64, place: *mut u64) -> i32;
    fn ovl_call(
        mount: *mut Handle,
        client: u64,
        request: *const u8,
        request_length: usize,
        reply: *mut u8,
        room: usize,
        length: *mut usize,
    ) -> i32;
    fn ovl_save(mount: *mut Handle, length: *mut usize, left_out: *mut u64) -> i32;
    fn ovl_saved(
        mount: *mut Handle,
        at: usize,
        text: *mut u8,
        room: usize,
        count: *mut usize,
    ) -> i32;
}

impl Mount {
    /// The mount of a manifest whose blobs have these bytes.
    pub fn new(manifest: &[u8], blobs: &[&[u8]], keys: &[u8; 16]) -> Result<Mount, Failure> {
        let bytes = blobs.concat();
        let lengths: Vec<usize> = blobs.iter().map(|blob| blob.len()).collect();
        let mut mount = Mount { handle: Handle { at: std::ptr::null_mut() } };
        let (mut text, mut length) = ([0; 200], 0);
        let status = unsafe {
            ovl_mount_manifest(
                &mut mount.handle, manifest.as_ptr(), manifest.len(), bytes.as_ptr(), bytes.len(),
                lengths.as_ptr(), lengths.len(), keys, text.as_mut_ptr(), text.len(), &mut length,
            )
        };
        match status {
            0 => Ok(mount),
            9 => {
                let text = &text[..length.min(text.len())];
                Err(Failure::Fault(String::from_utf8_lossy(text).into_owned()))
            }
            status => Err(Failure::Status(status)),
        }
    }

    /// Attaches a client, and gives its number.
    pub fn attach(&mut self) -> Result<u64, Failure> {
        let mut client = 0;
        done(unsafe { ovl_attach(&mut self.handle, &mut client) })?;
        Ok(client)
    }

    /// Detaches a client, and gives the place of that.
    pub fn detach(&mut self, client: u64) -> Result<u64, Failure> {
        let mut place = 0;
        done(unsafe { ovl_detach(&mut self.handle, client, &mut place) })?;
        Ok(place)
    }

    /// Makes the call that a frame asks for, and gives the frame of its reply, which `room` holds.
    pub fn call<'a>(
        &mut self,
        client: u64,
        request: &[u8],
        room: &'a mut [u8; 65_807],
    ) -> Result<&'a [u8], Failure> {
        let mut length = 0;
        done(unsafe {
            ovl_call(
                &mut self.handle, client, request.as_ptr(), request.len(), room.as_mut_ptr(),
                room.len(), &mut length,
            )
        })?;
        Ok(&room[..length])
    }

    /// The upper as a manifest of one layer, and how many objects no manifest can say.
    pub fn save(&mut self) -> Result<(Vec<u8>, u64), Failure> {
        let (mut length, mut left_out, mut count) = (0, 0, 0);
        done(unsafe { ovl_save(&mut self.handle, &mut length, &mut left_out) })?;
        let mut text = vec![0; length];
        done(unsafe {
            ovl_saved(&mut self.handle, 0, text.as_mut_ptr(), text.len(), &mut count)
        })?;
        Ok((text, left_out))
    }
}

impl Drop for Mount {
    fn drop(&mut self) {
        unsafe { ovl_unmount(&mut self.handle) }
    }
}

fn done(status: i32) -> Result<(), Failure> {
    if status == 0 { Ok(()) } else { Err(Failure::Status(status)) }
}

fn main() -> Result<(), Box<dyn std::error::Error>> {
    let path = std::env::args().nth(1).ok_or("usage: embed-rs MANIFEST")?;
    let mut keys = [0; 16];
    std::fs::File::open("/dev/urandom")?.read_exact(&mut keys)?;
    let mut mount = Mount::new(&std::fs::read(path)?, &[], &keys).map_err(|it| format!("{it:?}"))?;
    let client = mount.attach().map_err(|it| format!("{it:?}"))?;
    let mut room = Box::new([0; 65_807]);
    let stat = [0, 0, 0, 4, 1, 0, 1, b'/'];
    let reply = mount.call(client, &stat, &mut room).map_err(|it| format!("{it:?}"))?;
    println!("stat /: status {}, kind {}", reply[4], reply[13]);
    let (text, _) = mount.save().map_err(|it| format!("{it:?}"))?;
    println!("the upper takes {} bytes", text.len());
    Ok(())
}
