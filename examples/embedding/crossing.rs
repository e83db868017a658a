//! A controller of a level crossing: a program of one's own over the engine, in Rust, to begin one's own from. docs/EMBEDDING.md walks through it.
//!
//!     crossing PLANT IMAGE
//!
//! The plant is examples/crossing.plant. A line of the standard input is what a sensor reports, as `approach_north`; the controller itself lowers and raises the barrier, and
//! lets trains in, whenever the plant allows it. Each move goes the same way: it is fired, then acknowledged, and only then its device is told to move, here by a line of the
//! standard output. So no device moves for a move that a stop could take back.
//!
//! The exit status is 0 at the end of the input, 1 if the plant or the image is not what the controller is for, 2 if the words of the command line are not two paths, and 3 if
//! a file, the memory, the input or the output failed, or the plant refused a move.
//!
//! `engine` is the library's calls as safe ones: take it as it is. `ImageFile` is the device on which the image is: take it, or write one for what you have. The rest is the
//! controller.
#![deny(unsafe_op_in_unsafe_fn)]

use engine::{status, Device, Plant, Refused, Text};
use std::env;
use std::ffi::OsString;
use std::fmt;
use std::fs::{self, File, Metadata, TryLockError};
use std::io::{self, BufRead, BufWriter, ErrorKind, Write};
use std::os::unix::fs::{FileExt, MetadataExt};
use std::path::{Path, PathBuf};
use std::process::ExitCode;

/// The library's calls, so that nothing outside of this module is unsafe. examples/embedding/kilnmace.h says what each does.
mod engine {
    use std::ffi::c_void;
    use std::fmt;
    use std::io;
    use std::marker::PhantomData;
    use std::ptr;

    /// The statuses that the controller tells apart.
    pub mod status {
        pub const OK: u32 = 0;
        pub const NOTHING_NEW: u32 = 9;
        pub const DISK: u32 = 10;
        pub const IMAGE_NOT_FORMATTED: u32 = 21;
        pub const IMAGE_NOT_ENABLED: u32 = 27;
        pub const IMAGE_DISK: u32 = 28;
        pub const NO_PLANT: u32 = 65;
        pub const NO_SUCH: u32 = 66;
        pub const NONE: u32 = 68;
    }

    const MOST_VARIABLES: usize = 16;
    const MOST_NAME: usize = 32;
    const MOST_STATUS_TEXT: usize = 80;

    /// How many bytes a step has at most.
    const MOST_STEP: usize = 1024;

    /// The kinds of a step that are told apart: any other is a sync.
    const STEP_NONE: u32 = 0;
    const STEP_WRITE: u32 = 1;

    /// What a variable of the library's holds.
    #[repr(C)]
    #[derive(Clone, Copy)]
    struct Held {
        at: *mut c_void,
        mark: u64,
    }

    impl Held {
        const NOTHING: Held = Held { at: ptr::null_mut(), mark: 0 };
    }

    /// More of a refusal.
    #[repr(C)]
    #[derive(Clone, Copy, Default)]
    pub struct Detail {
        pub first: u64,
        pub second: u64,
    }

    /// How far a plant is.
    #[repr(C)]
    #[derive(Clone, Copy, Default)]
    pub struct Front {
        pub fired: u64,
        pub acked: u64,
        pub base: u64,
        pub ring: u32,
    }

    /// What is to be done to a device next.
    #[repr(C)]
    #[derive(Default)]
    struct Step {
        at: u64,
        length: u32,
        kind: u32,
    }

    extern "C" {
        fn kilnmace_raw_text_read(text: *mut Held, bytes: *const u8, length: usize, detail: *mut Detail) -> u32;
        fn kilnmace_raw_atom(text: *mut Held, name: *const u8, length: usize, atom: *mut u16) -> u32;
        fn kilnmace_raw_connector(text: *mut Held, name: *const u8, length: usize, connector: *mut u16) -> u32;
        fn kilnmace_raw_place(text: *mut Held, atom: u16, name: *const u8, length: usize, place: *mut u16) -> u32;
        fn kilnmace_raw_variable(text: *mut Held, atom: u16, name: *const u8, length: usize, variable: *mut u16) -> u32;
        fn kilnmace_raw_connector_name(text: *mut Held, connector: u16, name: *mut u8, room: usize, length: *mut usize) -> u32;
        fn kilnmace_raw_image_bytes(text: *mut Held, ring: u32, bytes: *mut u64) -> u32;
        fn kilnmace_raw_image(plant: *mut Held, bytes: u64) -> u32;
        fn kilnmace_raw_fill(plant: *mut Held, at: u64, bytes: *const u8, length: usize) -> u32;
        fn kilnmace_raw_format(plant: *mut Held, text: *mut Held, ring: u32) -> u32;
        fn kilnmace_raw_boot(plant: *mut Held, text: *mut Held, detail: *mut Detail) -> u32;
        fn kilnmace_raw_step(plant: *mut Held, step: *mut Step, bytes: *mut u8, room: usize) -> u32;
        fn kilnmace_raw_fail(plant: *mut Held) -> u32;
        fn kilnmace_raw_close(plant: *mut Held) -> u32;
        fn kilnmace_raw_front_of(plant: *mut Held, front: *mut Front) -> u32;
        fn kilnmace_raw_state(plant: *mut Held, atom: u16, marked: *mut u64, values: *mut i64, room: usize, count: *mut usize) -> u32;
        fn kilnmace_raw_fire_connector(plant: *mut Held, connector: u16, fired: *mut u64) -> u32;
        fn kilnmace_raw_flush(plant: *mut Held, acked: *mut u64) -> u32;
        fn kilnmace_raw_save(plant: *mut Held, atoms: *mut u64) -> u32;
        fn kilnmace_raw_trim(plant: *mut Held, base: *mut u64) -> u32;
        fn kilnmace_raw_status_text(status: u32, text: *mut u8, room: usize, length: *mut usize) -> u32;
    }

    /// Why a call was refused, with its detail where the call has one.
    #[derive(Clone, Copy)]
    pub struct Refused {
        pub status: u32,
        pub detail: Detail,
    }

    impl fmt::Display for Refused {
        fn fmt(&self, f: &mut fmt::Formatter<'_>) -> fmt::Result {
            let (mut text, mut length) = ([0; MOST_STATUS_TEXT], 0);
            // SAFETY: there is room for as many bytes as the array has.
            match unsafe { kilnmace_raw_status_text(self.status, text.as_mut_ptr(), text.len(), &mut length) } {
                status::OK => f.write_str(&String::from_utf8_lossy(&text[..length])),
                _ => write!(f, "status {}", self.status),
            }
        }
    }

    fn judged(status: u32) -> Result<(), Refused> {
        judged_with(status, Detail::default())
    }

    fn judged_with(status: u32, detail: Detail) -> Result<(), Refused> {
        if status == status::OK {
            Ok(())
        } else {
            Err(Refused { status, detail })
        }
    }

    // SAFETY of each call below: a reference leads to a variable that lives for longer than the call, and bytes are handed on with their own length or room. What is held was
    // held by the library before. What a plant holds is in one place alone, and what a text holds is never given back: so a copy of it is as good. Both stay with one thread,
    // since a type with a pointer in it is no `Send`.

    /// A plant's text that was read. It stays until the program ends.
    pub struct Text {
        held: Held,
    }

    impl Text {
        pub fn read(bytes: &[u8]) -> Result<Text, Refused> {
            let (mut held, mut detail) = (Held::NOTHING, Detail::default());
            let status = unsafe { kilnmace_raw_text_read(&mut held, bytes.as_ptr(), bytes.len(), &mut detail) };
            judged_with(status, detail).map(|()| Text { held })
        }

        pub fn atom(&self, name: &[u8]) -> Result<u16, Refused> {
            let (mut held, mut atom) = (self.held, 0);
            judged(unsafe { kilnmace_raw_atom(&mut held, name.as_ptr(), name.len(), &mut atom) }).map(|()| atom)
        }

        pub fn connector(&self, name: &[u8]) -> Result<u16, Refused> {
            let (mut held, mut connector) = (self.held, 0);
            judged(unsafe { kilnmace_raw_connector(&mut held, name.as_ptr(), name.len(), &mut connector) }).map(|()| connector)
        }

        pub fn place(&self, atom: u16, name: &[u8]) -> Result<u16, Refused> {
            let (mut held, mut place) = (self.held, 0);
            judged(unsafe { kilnmace_raw_place(&mut held, atom, name.as_ptr(), name.len(), &mut place) }).map(|()| place)
        }

        pub fn variable(&self, atom: u16, name: &[u8]) -> Result<u16, Refused> {
            let (mut held, mut variable) = (self.held, 0);
            judged(unsafe { kilnmace_raw_variable(&mut held, atom, name.as_ptr(), name.len(), &mut variable) }).map(|()| variable)
        }

        pub fn connector_name(&self, connector: u16) -> Result<Vec<u8>, Refused> {
            let (mut held, mut name, mut length) = (self.held, vec![0; MOST_NAME], 0);
            judged(unsafe { kilnmace_raw_connector_name(&mut held, connector, name.as_mut_ptr(), name.len(), &mut length) })?;
            name.truncate(length);
            Ok(name)
        }

        /// How many bytes an image has with a ring of so many records.
        pub fn image_bytes(&self, ring: u32) -> Result<u64, Refused> {
            let (mut held, mut bytes) = (self.held, 0);
            judged(unsafe { kilnmace_raw_image_bytes(&mut held, ring, &mut bytes) }).map(|()| bytes)
        }

        /// Formats a device that has so many bytes: whatever it held is gone.
        pub fn format(&self, device: &mut impl Device, ring: u32) -> Result<(), Refused> {
            let (mut held, mut image) = (self.held, Image::load(device)?);
            judged(unsafe { kilnmace_raw_format(&mut image.held, &mut held, ring) })?;
            image.perform(device, status::IMAGE_DISK)
        }
    }

    /// A device with an image. kilnmace.h says what is supposed of it.
    pub trait Device {
        fn bytes(&self) -> u64;
        fn read(&mut self, at: u64, into: &mut [u8]) -> io::Result<()>;
        fn write(&mut self, at: u64, from: &[u8]) -> io::Result<()>;
        fn sync(&mut self) -> io::Result<()>;
    }

    /// The bytes of an image, and the plant once it is booted on them. Their memory is given back when it is dropped.
    struct Image {
        held: Held,
    }

    impl Image {
        /// The image of a device.
        fn load(device: &mut impl Device) -> Result<Image, Refused> {
            let (mut image, mut piece) = (Image { held: Held::NOTHING }, [0; MOST_STEP]);
            judged(unsafe { kilnmace_raw_image(&mut image.held, device.bytes()) })?;
            let mut at = 0;
            while at < device.bytes() {
                let length = (device.bytes() - at).min(MOST_STEP as u64) as usize;
                device.read(at, &mut piece[..length]).or_else(|_| judged(status::IMAGE_DISK))?;
                judged(unsafe { kilnmace_raw_fill(&mut image.held, at, piece.as_ptr(), length) })?;
                at += length as u64;
            }
            Ok(image)
        }

        /// Performs all steps that are queued, in their order. The first that the device fails in is the last, and is answered by this status.
        fn perform(&mut self, device: &mut impl Device, failed: u32) -> Result<(), Refused> {
            let (mut step, mut bytes) = (Step::default(), [0; MOST_STEP]);
            loop {
                judged(unsafe { kilnmace_raw_step(&mut self.held, &mut step, bytes.as_mut_ptr(), bytes.len()) })?;
                let answer = match step.kind {
                    STEP_NONE => return Ok(()),
                    STEP_WRITE => device.write(step.at, &bytes[..step.length as usize]),
                    _ => device.sync(),
                };
                answer.or_else(|_| judged(failed))?;
            }
        }
    }

    impl Drop for Image {
        fn drop(&mut self) {
            // It is refused if the image was refused, and nothing is held.
            let _ = unsafe { kilnmace_raw_close(&mut self.held) };
        }
    }

    /// A durable plant, open on the image of a device. It is closed when it is dropped. So it lives no longer than its text.
    pub struct Plant<'t, D: Device> {
        image: Image,
        device: D,
        text: PhantomData<&'t Text>,
    }

    impl<'t, D: Device> Plant<'t, D> {
        pub fn open(text: &'t Text, mut device: D) -> Result<Plant<'t, D>, Refused> {
            let (mut held, mut image, mut detail) = (text.held, Image::load(&mut device)?, Detail::default());
            let status = unsafe { kilnmace_raw_boot(&mut image.held, &mut held, &mut detail) };
            judged_with(status, detail)?;
            image.perform(&mut device, status::IMAGE_DISK)?;
            Ok(Plant { image, device, text: PhantomData })
        }

        pub fn front(&mut self) -> Result<Front, Refused> {
            let mut front = Front::default();
            judged(unsafe { kilnmace_raw_front_of(&mut self.image.held, &mut front) }).map(|()| front)
        }

        /// The marked places of an atom, a bit each, and the values of its variables.
        pub fn state(&mut self, atom: u16) -> Result<(u64, Vec<i64>), Refused> {
            let (mut marked, mut values, mut count) = (0, vec![0; MOST_VARIABLES], 0);
            judged(unsafe { kilnmace_raw_state(&mut self.image.held, atom, &mut marked, values.as_mut_ptr(), values.len(), &mut count) })?;
            values.truncate(count);
            Ok((marked, values))
        }

        pub fn fire_connector(&mut self, connector: u16) -> Result<u64, Refused> {
            let mut fired = 0;
            judged(unsafe { kilnmace_raw_fire_connector(&mut self.image.held, connector, &mut fired) }).map(|()| fired)
        }

        pub fn flush(&mut self) -> Result<u64, Refused> {
            let mut acked = 0;
            let status = unsafe { kilnmace_raw_flush(&mut self.image.held, &mut acked) };
            self.performed(status).map(|()| acked)
        }

        pub fn save(&mut self) -> Result<u64, Refused> {
            let mut atoms = 0;
            let status = unsafe { kilnmace_raw_save(&mut self.image.held, &mut atoms) };
            self.performed(status).map(|()| atoms)
        }

        pub fn trim(&mut self) -> Result<u64, Refused> {
            let mut base = 0;
            let status = unsafe { kilnmace_raw_trim(&mut self.image.held, &mut base) };
            self.performed(status).map(|()| base)
        }

        /// Performs what an event queued that was answered so. The plant of a device that fails is broken.
        fn performed(&mut self, status: u32) -> Result<(), Refused> {
            judged(status)?;
            let answer = self.image.perform(&mut self.device, status::DISK);
            if answer.is_err() {
                unsafe { kilnmace_raw_fail(&mut self.image.held) };
            }
            answer
        }
    }
}

/// Which file it is, and how many bytes it has.
type Identity = (u64, u64, u64);

fn identity_of(metadata: &Metadata) -> Identity {
    (metadata.dev(), metadata.ino(), metadata.len())
}

/// The file of an image, as a device. It is locked until it is dropped.
struct ImageFile {
    file: File,
    path: PathBuf,
    identity: Identity,
}

impl ImageFile {
    /// Opens the file, and writes all of it anew. A sync that failed may have forgotten what it did not write, and a read gives it all the same:
    /// now it is on the disk.
    fn open(path: &Path) -> io::Result<ImageFile> {
        let mut file = ImageFile::over(File::options().read(true).write(true).open(path)?, path)?;
        let mut part = [0; MOST_PART];
        // A larger one is no image.
        for (at, length) in parts(file.bytes()).take_while(|_| file.bytes() <= MOST_IMAGE) {
            file.file.read_exact_at(&mut part[..length], at)?;
            file.file.write_all_at(&part[..length], at)?;
        }
        file.sync()?;
        // A stop may have come before its name was on the disk. A user who may not read the folder can't see to that, and some file systems sync none.
        match sync_folder_of(path) {
            Err(fault) if !matches!(fault.kind(), ErrorKind::PermissionDenied | ErrorKind::InvalidInput) => return Err(fault),
            _ => {}
        }
        // A stop may have left it the name under which it was made.
        let other = other_name(path);
        if fs::symlink_metadata(&other).is_ok_and(|found| identity_of(&found) == file.identity) {
            let _ = fs::remove_file(&other);
        }
        Ok(file)
    }

    /// Locks a file, and finds out which one it is.
    fn over(file: File, path: &Path) -> io::Result<ImageFile> {
        lock(&file)?;
        let metadata = file.metadata()?;
        if !metadata.is_file() {
            return Err(io::Error::other("not a plain file"));
        }
        Ok(ImageFile { file, path: path.to_owned(), identity: identity_of(&metadata) })
    }

    /// Makes a file of so many zeros, under another name than the path. What an earlier call left there is taken away, if no program has it locked.
    fn create(path: &Path, bytes: u64) -> io::Result<ImageFile> {
        let other = other_name(path);
        let mut options = File::options();
        options.read(true).write(true).create_new(true);
        let file = match options.open(&other) {
            Err(fault) if fault.kind() == ErrorKind::AlreadyExists => {
                let left = ImageFile::over(File::options().read(true).write(true).open(&other)?, &other)?;
                left.is_named().and_then(|()| fs::remove_file(&other))?;
                options.open(&other)?
            }
            opened => opened?,
        };
        let mut made = ImageFile::over(file, &other)?;
        // Another program may have taken it for what a stop had left, before it was locked.
        made.is_named()?;
        // The zeros are written, so that no later write asks the disk for room.
        for (at, length) in parts(bytes) {
            made.file.write_all_at(&[0; MOST_PART][..length], at)?;
        }
        made.file.sync_all()?;
        made.identity.2 = bytes;
        Ok(made)
    }

    /// Gives the file its name, if nothing has it by now, and puts that onto the disk.
    fn take_name(&mut self, path: &Path) -> io::Result<()> {
        fs::hard_link(&self.path, path)?;
        sync_folder_of(path)?;
        fs::remove_file(std::mem::replace(&mut self.path, path.to_owned()))
    }

    /// Once the path names another file, or none, what is written reaches no later start.
    fn is_named(&self) -> io::Result<()> {
        match fs::metadata(&self.path) {
            Ok(found) if identity_of(&found) == self.identity => Ok(()),
            _ => Err(io::Error::other("its path names another file now")),
        }
    }
}

impl Device for ImageFile {
    fn bytes(&self) -> u64 {
        self.identity.2
    }

    fn read(&mut self, at: u64, into: &mut [u8]) -> io::Result<()> {
        self.file.read_exact_at(into, at)
    }

    fn write(&mut self, at: u64, from: &[u8]) -> io::Result<()> {
        self.file.write_all_at(from, at)
    }

    // If it fails the controller ends, and the next one opens the file anew.
    fn sync(&mut self) -> io::Result<()> {
        self.is_named()?;
        self.file.sync_data()
    }
}

/// Puts the names in the folder of the path onto the disk.
fn sync_folder_of(path: &Path) -> io::Result<()> {
    let folder = path.parent().filter(|folder| !folder.as_os_str().is_empty()).unwrap_or(Path::new("."));
    File::open(folder)?.sync_all()
}

/// The name that a file has while it is made for the path.
fn other_name(path: &Path) -> PathBuf {
    let mut name = path.as_os_str().to_owned();
    name.push(".kilnmace-unfinished");
    PathBuf::from(name)
}

/// So many bytes in parts: where each begins, and how long it is.
fn parts(bytes: u64) -> impl Iterator<Item = (u64, usize)> {
    (0..bytes).step_by(MOST_PART).map(move |at| (at, (bytes - at).min(MOST_PART as u64) as usize))
}

/// Locks the file, without waiting for another program that has it locked.
fn lock(file: &File) -> io::Result<()> {
    match file.try_lock() {
        Ok(()) => Ok(()),
        Err(TryLockError::WouldBlock) => Err(io::Error::other("the file is in use")),
        Err(TryLockError::Error(fault)) => Err(fault),
    }
}

/// How many bytes are read and written at once, and how many an image has at most.
const MOST_PART: usize = 4096;
const MOST_IMAGE: u64 = 4_328_448;

/// For how many records a new image has room. A plant with fewer is saved more often, and one with more takes a larger file: 1,024 bytes for each.
const RING: u32 = 64;

/// Room is made where the ring has less for new records.
const LEAST_FREE: u64 = 8;

/// How many bytes of a line are kept. No name of a connector is as long.
const KEPT: usize = 64;

/// The connectors that the controller fires of its own, as soon as the plant allows it, the first one first.
const ORDERS: [&str; 4] = ["lower", "enter_north", "enter_south", "raise"];

/// The atoms with their places and variables, in the order of the plant's text.
const ATOMS: [(&str, &[&str], &[&str]); 4] = [
    ("North", &["away", "near", "inside"], &["trips"]),
    ("South", &["away", "near", "inside"], &["trips"]),
    ("Barrier", &["up", "down"], &[]),
    ("Supervisor", &["calm", "warned"], &[]),
];

/// Why the program ends early.
enum Ending {
    Usage,
    NoText,
    /// The text is no plant of a crossing.
    OtherPlant,
    Text(Refused),
    /// The file of the image can't be opened, or made.
    File(io::Error),
    Image(Refused),
    Plant(Refused),
    Input,
    Output,
}

impl Ending {
    fn status(&self) -> u8 {
        match self {
            Ending::Usage => 2,
            Ending::OtherPlant => 1,
            Ending::Text(refused) if refused.status == status::NO_PLANT => 1,
            // Of these the image is to blame, and no device.
            Ending::Image(refused) if (status::IMAGE_NOT_FORMATTED..=status::IMAGE_NOT_ENABLED).contains(&refused.status) => 1,
            _ => 3,
        }
    }
}

impl fmt::Display for Ending {
    fn fmt(&self, f: &mut fmt::Formatter<'_>) -> fmt::Result {
        match self {
            Ending::Usage => f.write_str("usage: crossing PLANT IMAGE"),
            Ending::NoText => f.write_str("the plant's text can't be opened"),
            Ending::OtherPlant => f.write_str("it is no plant of a crossing"),
            Ending::Text(refused) if refused.status == status::NO_PLANT => {
                write!(f, "plant line {}: fault {}", refused.detail.first, refused.detail.second)
            }
            Ending::Text(refused) => write!(f, "the plant's text: {refused}"),
            Ending::File(fault) => write!(f, "the image: {fault}"),
            Ending::Image(refused) => write!(f, "the image: {refused}"),
            Ending::Plant(refused) => write!(f, "the plant: {refused}"),
            Ending::Input => f.write_str("the standard input can't be read"),
            Ending::Output => f.write_str("the standard output can't be written"),
        }
    }
}

/// By which numbers the plant's text has what the controller knows.
struct Numbers {
    atoms: Vec<(u16, Vec<u16>, Vec<u16>)>,
    orders: Vec<u16>,
}

/// Names are looked up once. From here on the controller goes by numbers.
fn numbers_in(text: &Text) -> Result<Numbers, Refused> {
    let mut atoms = Vec::new();
    for (name, places, variables) in ATOMS {
        let atom = text.atom(name.as_bytes())?;
        let places = places.iter().map(|name| text.place(atom, name.as_bytes())).collect::<Result<_, _>>()?;
        let variables = variables.iter().map(|name| text.variable(atom, name.as_bytes())).collect::<Result<_, _>>()?;
        atoms.push((atom, places, variables));
    }
    let orders = ORDERS.iter().map(|name| text.connector(name.as_bytes())).collect::<Result<_, _>>()?;
    Ok(Numbers { atoms, orders })
}

/// Opens the plant where its last acknowledged move left it. Where no file is there, one is made, with the plant in its first state.
fn opened<'t>(text: &'t Text, path: &Path) -> Result<Plant<'t, ImageFile>, Ending> {
    let file = match ImageFile::open(path) {
        Err(fault) if fault.kind() == ErrorKind::NotFound => made(text, path)?,
        opened => opened.map_err(Ending::File)?,
    };
    Plant::open(text, file).map_err(Ending::Image)
}

/// A new image. It is made under another name, and has the path when it is whole: so no stop leaves a part of one there.
fn made(text: &Text, path: &Path) -> Result<ImageFile, Ending> {
    let bytes = text.image_bytes(RING).map_err(Ending::Image)?;
    let mut file = ImageFile::create(path, bytes).map_err(Ending::File)?;
    text.format(&mut file, RING).map_err(Ending::Image)?;
    file.take_name(path).map_err(Ending::File)?;
    Ok(file)
}

/// The plant, what the controller knows of it, and where the devices are told.
struct Crossing<'t, W> {
    text: &'t Text,
    numbers: &'t Numbers,
    plant: Plant<'t, ImageFile>,
    output: W,
}

impl<W: Write> Crossing<'_, W> {
    /// Controls the crossing by the lines of the input, up to its end.
    fn control(&mut self, mut input: impl BufRead) -> Result<(), Ending> {
        self.print_standing()?;
        // The run before may have ended before its orders were given.
        self.give_orders()?;
        let mut line = Vec::new();
        while input.read_until(b'\n', &mut line).map_err(|_| Ending::Input)? > 0 {
            self.take_report(name_in(&line))?;
            self.give_orders()?;
            line.clear();
        }
        Ok(())
    }

    /// Prints where the plant stands, so that each device can be set to what the plant says of it: the last move may be acknowledged, and its device not told.
    fn print_standing(&mut self) -> Result<(), Ending> {
        let mut told = String::new();
        for ((name, places, variables), (atom, place_numbers, variable_numbers)) in ATOMS.iter().zip(&self.numbers.atoms) {
            let (marked, values) = self.plant.state(*atom).map_err(Ending::Plant)?;
            let marked: Vec<&str> = places.iter().zip(place_numbers).filter(|(_, number)| marked >> **number & 1 == 1).map(|(place, _)| *place).collect();
            told += &format!("state {name} [{}]", marked.join(" "));
            for (variable, number) in variables.iter().zip(variable_numbers) {
                told += &format!(" {variable}={}", values[usize::from(*number)]);
            }
            told += "\n";
        }
        let front = self.plant.front().map_err(Ending::Plant)?;
        told += &format!("front {} {} {}\n", front.fired, front.acked, front.base);
        self.tell(told.as_bytes())
    }

    /// Makes the move that a sensor reports. One that the plant does not have now is told, and nothing moves: the sensor or the plant is wrong.
    fn take_report(&mut self, name: &[u8]) -> Result<(), Ending> {
        match self.text.connector(name) {
            Ok(connector) => {
                self.make_room()?;
                if self.make_move(connector)? {
                    return Ok(());
                }
            }
            Err(refused) if refused.status == status::NO_SUCH => {}
            Err(refused) => return Err(Ending::Text(refused)),
        }
        self.tell(&[b"not possible now: ", name, b"\n"].concat())
    }

    /// Makes the moves that the controller makes of its own, until it has none.
    fn give_orders(&mut self) -> Result<(), Ending> {
        while self.give_first_order()? {}
        Ok(())
    }

    /// Makes the first of them that the plant has now, and says whether it had one.
    fn give_first_order(&mut self) -> Result<bool, Ending> {
        self.make_room()?;
        for order in &self.numbers.orders {
            if self.make_move(*order)? {
                return Ok(true);
            }
        }
        Ok(false)
    }

    /// Makes the move of a connector, and says whether the plant had one.
    fn make_move(&mut self, connector: u16) -> Result<bool, Ending> {
        match self.plant.fire_connector(connector) {
            Ok(_) => {}
            Err(refused) if refused.status == status::NONE => return Ok(false),
            Err(refused) => return Err(Ending::Plant(refused)),
        }
        let number = self.plant.flush().map_err(Ending::Plant)?;
        // Not before the flush: now no stop takes the move back.
        let name = self.text.connector_name(connector).map_err(Ending::Text)?;
        self.tell(&[number.to_string().as_bytes(), b" ", &name, b"\n"].concat())?;
        Ok(true)
    }

    /// Saves the atoms that are behind and drops the records that no restart needs, if the ring has room for few records more.
    fn make_room(&mut self) -> Result<(), Ending> {
        let front = self.plant.front().map_err(Ending::Plant)?;
        let kept = front.fired + 1 - front.base;
        if u64::from(front.ring) - kept < LEAST_FREE {
            passed(self.plant.save())?;
            passed(self.plant.trim())?;
        }
        Ok(())
    }

    /// Tells these lines, which go out at once.
    fn tell(&mut self, lines: &[u8]) -> Result<(), Ending> {
        self.output.write_all(lines).and_then(|()| self.output.flush()).map_err(|_| Ending::Output)
    }
}

/// That nothing is new to save, and nothing may go, is no reason to end.
fn passed(answer: Result<u64, Refused>) -> Result<(), Ending> {
    match answer {
        Err(refused) if refused.status != status::NOTHING_NEW => Err(Ending::Plant(refused)),
        _ => Ok(()),
    }
}

/// The name in a line: what is kept of it, without a line feed and a carriage return before it.
fn name_in(line: &[u8]) -> &[u8] {
    let kept = &line[..line.len().min(KEPT)];
    match kept.strip_suffix(b"\n") {
        Some(name) => name.strip_suffix(b"\r").unwrap_or(name),
        None => kept,
    }
}

/// Controls the crossing whose plant and image the words of the command line name.
fn run(words: &[OsString]) -> Result<(), Ending> {
    let [_, plant, image] = words else {
        return Err(Ending::Usage);
    };
    let bytes = fs::read(plant).map_err(|_| Ending::NoText)?;
    let text = Text::read(&bytes).map_err(Ending::Text)?;
    let numbers = numbers_in(&text).map_err(|refused| if refused.status == status::NO_SUCH { Ending::OtherPlant } else { Ending::Text(refused) })?;
    let plant = opened(&text, Path::new(image))?;
    let output = BufWriter::new(io::stdout().lock());
    let mut crossing = Crossing { text: &text, numbers: &numbers, plant, output };
    crossing.control(io::stdin().lock())
}

fn main() -> ExitCode {
    match run(&env::args_os().collect::<Vec<_>>()) {
        Ok(()) => ExitCode::SUCCESS,
        Err(ending) => {
            eprintln!("{ending}");
            ExitCode::from(ending.status())
        }
    }
}
