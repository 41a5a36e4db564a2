//! A trace from a file or from standard input, as text or as bytes: its image,
//! its records one by one, and what a text says beside them.

use std::ffi::{OsStr, OsString};
use std::fs::{self, File};
use std::io::{self, Cursor, Read};
use std::os::unix::fs::MetadataExt;
use std::os::unix::io::{AsFd, OwnedFd};

use super::options::Given;
use super::problem::{self, Problem};
use super::progress::Progress;
use crate::terminal::cells::RAM_WORDS;
use crate::terminal::long::LONG_BYTES;
use crate::terminal::records::RECORD_BYTES;
use crate::terminal::trace::{fill, image_bytes, image_words, IMAGE_BYTES};
use crate::terminal::Settings;
use crate::text::list::ListText;
use crate::text::{read_names, read_text, Owners, TraceText};

/// Records read at a time.
const BATCH_RECORDS: usize = 1024;

pub struct Source {
    /// The file's name, as it is shown.
    pub name: String,
    pub settings: Settings,
    pub owners: Owners,
    /// Whether the text itself says settings or owners.
    has_names: bool,
    /// What a text says of a controller's run.
    pub list: ListText,
    /// The image, or the length in bytes of one that is too short.
    pub image: Result<Vec<u16>, usize>,
    records: Records,
}

impl Source {
    /// Opens what a command was given as its FILE.
    pub fn open(given: &Given) -> Result<Source, Problem> {
        Source::open_records(given, given.has("--long").then_some(true))
    }

    /// The same, with long records or old ones where that is said; a text says
    /// it itself.
    pub fn open_records(given: &Given, long: Option<bool>) -> Result<Source, Problem> {
        let file = given.files.first().map_or(OsStr::new("-"), |file| file);
        let (name, input, length) = open(file)?;
        let mut source = Source::read(given, name, input, length, long)?;
        if let Some(names) = given.value("--names") {
            source.take_names(names)?;
        }
        Ok(source)
    }

    fn read(
        given: &Given,
        name: String,
        mut input: Box<dyn Read>,
        length: Option<u64>,
        long: Option<bool>,
    ) -> Result<Source, Problem> {
        let mut start = vec![0; IMAGE_BYTES];
        let (read, done) = fill(&mut *input, &mut start);
        done.map_err(|error| problem::file(&name, &error))?;
        start.truncate(read);
        let is_text = given.has("--text") || !given.has("--bytes") && looks_like_text(&start);
        if is_text {
            Source::from_text(name, start, input, long)
        } else {
            let image = whole_image(&start, RAM_WORDS);
            let behind = length.map(|length| behind(length, read));
            let long = long.unwrap_or(false);
            if long {
                not_old(&name, behind)?;
            }
            let records = Records::new(input, behind, long);
            Ok(Source {
                name,
                settings: Settings::TRACE,
                owners: Owners::default(),
                has_names: false,
                list: ListText::default(),
                image,
                records,
            })
        }
    }

    /// A text is read whole before anything is done, so that its errors are
    /// told first; it is held as the bytes that it stands for.
    fn from_text(
        name: String,
        mut text: Vec<u8>,
        mut input: Box<dyn Read>,
        long: Option<bool>,
    ) -> Result<Source, Problem> {
        let read = input.read_to_end(&mut text);
        read.map_err(|error| problem::file(&name, &error))?;
        let read = read_text(&text).map_err(|error| problem::text(&name, &error))?;
        match long {
            Some(long) if long != read.long => {
                let has = if read.long { LONG_BYTES } else { RECORD_BYTES };
                let line = "a line \"records 96\" makes the records of a text long";
                let text = format!("{name}: its records have {has} bytes; {line}");
                Err(Problem::Input(text))
            }
            _ => Ok(Source::held(name, read)),
        }
    }

    /// A text that was read already.
    pub fn held(name: String, read: TraceText) -> Source {
        let length = read.records.len() as u64;
        Source {
            name,
            has_names: read.settings.is_some() || !read.owners.is_empty(),
            settings: read.settings.unwrap_or(Settings::TRACE),
            image: whole_image(&read.image, read.ram_words),
            records: Records::new(Box::new(Cursor::new(read.records)), Some(length), read.long),
            owners: read.owners,
            list: read.list,
        }
    }

    /// Settings and owners from a text of their own.
    fn take_names(&mut self, file: &OsStr) -> Result<(), Problem> {
        let (name, text) = read_whole(file)?;
        let names = read_names(&text).map_err(|error| problem::text(&name, &error))?;
        if self.has_names {
            let text = format!(
                "{}: has settings or owners of its own, so it takes none from {name}",
                self.name
            );
            return Err(Problem::Input(text));
        }
        self.settings = names.settings.unwrap_or(Settings::TRACE);
        self.owners = names.owners;
        Ok(())
    }

    /// The image of a command that can do nothing without one.
    pub fn whole_image(&self) -> Result<Vec<u16>, Problem> {
        self.image.clone().map_err(|length| {
            let name = &self.name;
            Problem::Input(format!(
                "{name}: found {length} bytes, expected an image of 8192 bytes"
            ))
        })
    }

    /// The image as bytes, which have no place for the 64K card.
    pub fn image_bytes(&self) -> Result<Vec<u8>, Problem> {
        let image = self.whole_image()?;
        if image.len() == RAM_WORDS {
            return Ok(image_bytes(&image));
        }
        let name = &self.name;
        Err(Problem::Input(format!(
            "{name}: is of the 64K card, and bytes have no place for that; nothing is written"
        )))
    }

    /// The next whole record.
    pub fn next_record(&mut self) -> Result<Option<&[u8]>, Problem> {
        let Source { name, records, .. } = self;
        records.next().map_err(|error| problem::file(name, &error))
    }

    /// How many bytes each record has.
    pub fn record_bytes(&self) -> usize {
        self.records.record_bytes
    }

    /// All whole records that are left.
    pub fn records_left(&mut self) -> Result<Vec<u8>, Problem> {
        let mut bytes = Vec::new();
        while let Some(record) = self.next_record()? {
            bytes.extend_from_slice(record);
        }
        Ok(bytes)
    }

    /// How many bytes stand behind the last whole record.
    pub fn tail(&self) -> usize {
        self.records.filled - self.records.place
    }
}

/// Bytes that are read a batch at a time and handed on a record at a time.
struct Records {
    input: Box<dyn Read>,
    record_bytes: usize,
    batch: Vec<u8>,
    filled: usize,
    place: usize,
    /// Told when what was read before it is handed on.
    failure: Option<io::Error>,
    handed_on: u64,
    all: Option<u64>,
    progress: Progress,
}

impl Records {
    fn new(input: Box<dyn Read>, length: Option<u64>, long: bool) -> Records {
        let record_bytes = if long { LONG_BYTES } else { RECORD_BYTES };
        let batch = vec![0; BATCH_RECORDS * record_bytes];
        Records {
            input,
            record_bytes,
            // Full and used up: the first record asks for a batch.
            filled: batch.len(),
            place: batch.len(),
            batch,
            failure: None,
            handed_on: 0,
            all: length.map(|length| length / record_bytes as u64),
            progress: Progress::new(),
        }
    }

    fn next(&mut self) -> io::Result<Option<&[u8]>> {
        if self.place == self.batch.len() {
            let (filled, done) = fill(&mut *self.input, &mut self.batch);
            self.failure = done.err();
            self.filled = filled;
            self.place = 0;
            self.progress.at(self.handed_on, self.all);
        }
        let end = self.place + self.record_bytes;
        if end > self.filled {
            return self.failure.take().map_or(Ok(None), Err);
        }
        let record = &self.batch[self.place..end];
        self.place = end;
        self.handed_on += 1;
        Ok(Some(record))
    }
}

/// How many bytes are behind those that were read: none where the file has
/// grown since its length was asked.
pub fn behind(length: u64, read: usize) -> u64 {
    length.saturating_sub(read as u64)
}

/// Records of 80 bytes given as long ones are told as such, where their length
/// shows it.
fn not_old(name: &str, behind: Option<u64>) -> Result<(), Problem> {
    let (long, old) = (LONG_BYTES as u64, RECORD_BYTES as u64);
    match behind {
        Some(bytes) if bytes % long != 0 && bytes % old == 0 => {
            let records = bytes / old;
            let advice = "leave --long out, or make them long with ./solkverva convert --long";
            Err(Problem::Input(format!(
                "{name}: {bytes} bytes are no whole records of 96 bytes, but {records} of 80; {advice}"
            )))
        }
        _ => Ok(()),
    }
}

/// A file's name as it is shown, and all of its bytes.
pub fn read_whole(file: &OsStr) -> Result<(String, Vec<u8>), Problem> {
    let (name, mut input, _) = open(file)?;
    let mut bytes = Vec::new();
    let read = input.read_to_end(&mut bytes);
    read.map_err(|error| problem::file(&name, &error))?;
    Ok((name, bytes))
}

/// Refuses a file to be written that is one of those to be read.
pub fn refuse_as_target(given: &Given, target: &OsStr) -> Result<(), Problem> {
    let written = file_of(target, || io::stdout().as_fd().try_clone_to_owned());
    let inputs = given.files.first().map(OsString::as_os_str);
    for input in inputs.into_iter().chain(given.value("--names")) {
        let read = file_of(input, || io::stdin().as_fd().try_clone_to_owned());
        if written.is_some() && written == read {
            let (target, input) = (target.to_string_lossy(), name_of(input));
            let text = format!("-o {target} would overwrite {input}, which is read");
            return Err(Problem::Use(text));
        }
    }
    Ok(())
}

/// What tells a plain file from all others, by its name or, for `-`, as it is
/// open already.
fn file_of(name: &OsStr, standard: impl FnOnce() -> io::Result<OwnedFd>) -> Option<(u64, u64)> {
    let about = if name == "-" {
        standard().and_then(|open| File::from(open).metadata())
    } else {
        fs::metadata(name)
    };
    let about = about.ok().filter(|about| about.is_file())?;
    Some((about.dev(), about.ino()))
}

fn name_of(file: &OsStr) -> String {
    if file == "-" {
        "standard input".into()
    } else {
        file.to_string_lossy().into_owned()
    }
}

/// A file's name as it is shown, its bytes, and how many where that is known.
fn open(file: &OsStr) -> Result<(String, Box<dyn Read>, Option<u64>), Problem> {
    let name = name_of(file);
    if file == "-" {
        return Ok((name, Box::new(io::stdin().lock()), None));
    }
    let opened = File::open(file).map_err(|error| problem::file(&name, &error))?;
    let about = opened.metadata().ok().filter(|about| about.is_file());
    Ok((name, Box::new(opened), about.map(|about| about.len())))
}

/// Text has no zero bytes and no other control characters but those that lay
/// out lines; an image without one would be a strange one.
fn looks_like_text(start: &[u8]) -> bool {
    let in_text = |byte: &u8| *byte >= b' ' || b"\t\n\r".contains(byte);
    start.iter().all(in_text)
}

fn whole_image(start: &[u8], ram_words: usize) -> Result<Vec<u16>, usize> {
    if start.len() == 2 * ram_words {
        Ok(image_words(start))
    } else {
        Err(start.len())
    }
}
