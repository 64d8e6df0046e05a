"""Compares the code of the crates with PLACES below, for what no contract can say: that memory was refused, that a device failed, how octets
were compared, that memory is let go, and what the system is asked for.

For example, a function that answers Memory for every text above some length can be proved. So this script reads the code itself
(sources.py), word by word. Each of the following needs a row in PLACES, with the code as it is and what it comes from. A place without a
row fails, and so does a row whose code is not there exactly once.
- Memory, Read and Write of `Refusal`, the cases of `Fault`, and the errors that these are made from: AllocError, AllocFailed, OutOfMemory,
  is_memory, Partial, ErrorKind and `Error`. Imports and the types of results are free.
- Each `impl` for `Refusal` or `Fault`; each device, which is an `impl` of Read, Write, Input or Output; unsafe code, since it can make any
  value.
- A growth that is asked for by a number (ROOMS), and, in a function that may take memory, each loop that counts, goes through an array
  that it writes out, or does not name its items. The types of fields are free.
- Each comparison for equality in the crates that compare tags and signatures (COMPARING), unless one side is a number or a length and
  neither is a sum. In all crates: a function that has two octet parameters and returns a bool, and each call of `same_octets`. The rows of
  the calls that decide whether something opens have the whole function, so that none of them stands in a loop.
- Each answer that is made or inspected in the files that pass on the answers of std's files and streams (PASSING, by the beginnings of
  their paths).
- Each function of the file that asks the system (WHOLE), and each function that is given the system, with its whole text. Each import of a
  part of std that reaches the system (WORLD), and each path into one.
- A device that fails when it is told to, outside of the file that has it.
- A number other than 0 in a function that answers with a status.
Some things have no row, and always fail: a name that keeps memory from being let go (KEPT), such as `forget`; an import of all names of a
module other than std's vectors; a public module other than `laws`, and `line_laws` in tools. No name above, and not `Result`, may get
another name, by `use .. as`, by `type` or by importing the cases of an enum.

What it cannot see:
- a needless growth that is made from the input's own octets, by loops through a list that there is, or by a function that calls itself;
- memory that is kept in a value that lives on, such as a field or a cycle of `Rc`;
- a call of `same_octets` that is made in addition to the right one, in a function whose row does not have its whole text;
- a file that is opened, or a device that is called, only in order to fail;
- a comparison by order, by a pattern, by arithmetic or by a function of another crate, made in addition to the one by `same_octets`;
- when the kit returns an AllocError or an io::Error, and whether the reason in a row is true.
"""
import collections, os, re

from lib.sources import CRATES, ROOT, block_end, fault, parts, read, text_at, tokens_of

COMPARING = ("modes", "ciphers", "tokens")
PASSING = ("crates/lakhdzeva/src/growing", "crates/octets/src/streams", "crates/jose/src/apart", "crates/jose/src/files", "crates/jose/src/system")

# The file, the function ("" outside of functions), the code, and its origin or purpose.
PLACES = [
    # Refusals and faults, and what `?` turns into a refusal.
    ("octets/src/refusal.rt", "", "#[derive(Clone, Copy, Debug, PartialEq, Eq)] pub enum Refusal { Usage, Read, Write, Memory, Random,", "the declaration"),
    ("octets/src/refusal.rt", "", "impl fmt::Display for Refusal", "its text"),
    ("octets/src/refusal.rt", "Refusal::text", 'Refusal::Read => "2 Read", Refusal::Write => "3 Write", Refusal::Memory => "4 Memory",', "its text: matched, and not made"),
    ("octets/src/refusal.rt", "", "impl Error for Refusal {}", "std's trait of all errors"),
    ("octets/src/refusal.rt", "", "impl From<AllocError> for Refusal", "an allocation that std refused"),
    ("octets/src/refusal.rt", "Refusal::from", "fn from(_: AllocError) -> Refusal { Refusal::Memory }", "an allocation that std refused"),
    ("octets/src/refusal.rt", "", "impl<T: Drop> From<AllocFailed<T>> for Refusal", "an allocation that std refused"),
    ("octets/src/refusal.rt", "Refusal::from", "fn from(_: AllocFailed<T>) -> Refusal { Refusal::Memory }", "an allocation that std refused"),
    ("octets/src/refusal.rt", "", '#[derive(Clone, Copy, Debug, PartialEq, Eq, thiserror::Error)] pub enum Fault { #[error("an input failed")] Reading, '
     '#[error("an output failed")] Writing, }', "the declaration"),
    ("octets/src/refusal.rt", "", "impl From<Fault> for Refusal", "the fault of a device"),
    ("octets/src/refusal.rt", "Refusal::from", "match fault { Fault::Reading => Refusal::Read, Fault::Writing => Refusal::Write, }", "the fault of a device"),
    ("octets/src/whole.rt", "", "#[derive(Clone, Copy, Debug, PartialEq, Eq)] pub struct Partial { pub written: usize, }", "the declaration"),
    ("octets/src/whole.rt", "", "impl From<Partial> for Refusal", "the fault of an output"),
    ("octets/src/whole.rt", "Refusal::from", "fn from(_: Partial) -> Refusal { Refusal::Write }", "the fault of an output"),
    ("octets/src/whole.rt", "write_whole", "match out.write(&octets[written..]) { Ok(n) => written += n, Err(_) => return Err(Partial { written }), }", "the fault of an output"),

    # Memory, from errors that also have other causes.
    ("octets/src/base64url.rt", "b64_decode", "match BASE64URL.decode(alloc, text) { Ok(octets) => Ok(octets), "
     "Err(DecodeAllocError::OutOfMemory) => Err(Refusal::Memory),", "base64's error for memory"),
    ("keys/src/strict_json.rt", "read_value", "match Value::from_slice(alloc, octets) { Ok(value) => Ok(value), "
     "Err(error) if error.is_memory() => Err(Refusal::Memory),", "serde_json's error for memory"),
    ("keys/src/set.rt", "read_keys", "match read_key(alloc, value) { Ok(key) => keys.push(key)?, Err(Refusal::Memory) => return Err(Refusal::Memory),", "passed on"),
    ("keys/src/set.rt", "members_of", "match read_key(alloc, value) { Ok(key) => members.push(Some(key))?, Err(Refusal::Memory) => return Err(Refusal::Memory),", "passed on"),
    ("jose/src/words/options.rt", "refusal_for", "fn refusal_for(error: &Error) -> Refusal { if error.kind() == ErrorKind::OutOfMemory { Refusal::Memory }",
     "clap's error for memory"),
    ("jose/src/lib.rt", "placeholder", "match system.open(folder) { Ok(folder) => return Ok(if_standard(folder)), "
     "Err(e) if e.kind() == io::ErrorKind::OutOfMemory => return Err(Refusal::Memory),", "std's error for memory"),

    ("tools/src/verifying.rt", "good_keys", "match KeySet::read(alloc, keys, true) { Ok(set) => Ok(set), Err(Refusal::Memory) => Err(Cause::Refused(Refusal::Memory)),", "passed on"),
    ("tools/src/verifying.rt", "needs_so_many", "match needs_signers(alloc, set, number) { Ok(()) => Ok(()), Err(Refusal::Memory) => Err(Cause::Refused(Refusal::Memory)),", "passed on"),

    # A parameter that cannot be read is left to the recipients that need it, except for memory.
    ("objects/src/header/shared.rt", "octets_if_read", "Err(Refusal::Memory) => Err(Refusal::Memory),", "the error for memory of the reading"),

    # Devices over memory.
    ("octets/src/memory.rt", "", "Input for MemoryInput", "it never fails"),
    ("octets/src/memory.rt", "", "Output for MemoryOutput", "it fails when its room is used up"),
    ("octets/src/memory.rt", "MemoryOutput::write", "if n == 0 { count_one(&mut self.failures); return Err(Fault::Writing); }", "room that is used up"),
    ("octets/src/failing.rt", "", "Input for FailingInput", "it fails when it is told to"),
    ("octets/src/failing.rt", "FailingInput::read", "if is_due { count_one(&mut self.failures); return Err(Fault::Reading); }", "a failure that was asked for"),
    ("octets/src/failing.rt", "", "Output for FailingOutput", "it fails when it is told to"),
    ("octets/src/failing.rt", "FailingOutput::call", "if is_due { count_one(&mut self.failures); return Err(Fault::Writing); }", "a failure that was asked for"),

    # Devices over readers and writers.
    ("octets/src/streams.rt", "", "const MOST_OCTETS: u64 = 1 << 62;", "how many octets are read"),
    ("octets/src/streams.rt", "", "Input for ReaderInput", "it passes on what its reader answers"),
    ("octets/src/streams.rt", "ReaderInput::read", "if self.is_at_end || buf.is_empty() { return Ok(0); }", "a read without room, or past the end"),
    ("octets/src/streams.rt", "ReaderInput::read", "let left = (MOST_OCTETS - self.count) as usize; let room = buf.len().min(left).min(PIECE); "
     "let mut piece = [0u8; PIECE]; let taken = if room == 0 { None } else { read_once(&mut self.reader, &mut piece[..room]).ok() }; "
     "let Some(n) = taken else { count_one(&mut self.failures); return Err(Fault::Reading); };", "the reader's error, or that all that may be read was read"),
    ("octets/src/streams.rt", "ReaderInput::read", "self.is_at_end = n == 0; Ok(n)", "the reader's answer"),
    ("octets/src/streams.rt", "read_once", "'reads: for _ in 0..u64::MAX { match reader.read(buf) { Err(e) if e.kind() == ErrorKind::Interrupted => continue 'reads, "
     "result => return result, } } Err(io::Error::from(ErrorKind::Other))", "an interrupted call is made again, up to 2^64 - 1 times"),
    ("octets/src/streams.rt", "", "Output for WriterOutput", "it passes on what its writer answers"),
    ("octets/src/streams.rt", "WriterOutput::write", "if octets.is_empty() { return Ok(0); }", "a write of nothing"),
    ("octets/src/streams.rt", "WriterOutput::write", "match write_once(&mut self.writer, octets) { Ok(n) if n > 0 => { self.transcript.append(&octets[..n]); Ok(n) } "
     "_ => { count_one(&mut self.failures); Err(Fault::Writing) } }", "the writer's answer; its error, or that it took no octet"),
    ("octets/src/streams.rt", "WriterOutput::finish", "if flush_once(&mut self.writer).is_err() { count_one(&mut self.failures); return Err(Fault::Writing); } "
     "self.is_finished = true; count_one(&mut self.endings); Ok(())", "the writer's answer"),
    ("octets/src/streams.rt", "write_once", "'writes: for _ in 0..u64::MAX { match writer.write(octets) { Err(e) if e.kind() == ErrorKind::Interrupted => continue 'writes, "
     "result => return result, } } Err(io::Error::from(ErrorKind::Other))", "an interrupted call is made again, up to 2^64 - 1 times"),
    ("octets/src/streams.rt", "flush_once", "'flushes: for _ in 0..u64::MAX { match writer.flush() { Err(e) if e.kind() == ErrorKind::Interrupted => continue 'flushes, "
     "result => return result, } } Err(io::Error::from(ErrorKind::Other))", "an interrupted call is made again, up to 2^64 - 1 times"),

    # Files and standard streams.
    ("jose/src/files.rt", "", "Read for Source", "it passes on what its file or stream answers"),
    ("jose/src/files.rt", "Source::read", "if buf.is_empty() { return Ok(0); } match self { Source::Words(octets) => octets.read(buf), "
     "Source::Standard(stdin) => stdin.read(buf), Source::File { files, path, opened, } => { if opened.is_none() { *opened = Some(files.open(path)?); } "
     "match opened { Some(file) => file.read(buf), None => unreachable!(), } } "
     "Source::Device { files, path, opened, } => { if opened.is_none() { *opened = Some(files.open_device(path)?); } "
     "match opened { Some(Some(file)) => file.read(buf), _ => Ok(0), } } }",
     "what the words, the stream, the file or the device answers; a read without room, and a file that is no device"),
    ("jose/src/files.rt", "", "Write for Sink", "it passes on what its file or stream answers"),
    ("jose/src/files.rt", "Sink::write", "if octets.is_empty() { return Ok(0); } match self { Sink::Nowhere => Ok(octets.len()), "
     "Sink::Standard(stdout) => stdout.write(octets), Sink::File(output) => { if output.opened.is_none() { output.opened = Some(apart::create(output.files, &output.name)?); } "
     "match &mut output.opened { Some(file) => file.write(octets), None => unreachable!(), } } }",
     "what the stream or the file answers; a write of nothing, and an output that no option names"),
    ("jose/src/files.rt", "Sink::flush", "match self { Sink::Nowhere => Ok(()), Sink::Standard(stdout) => stdout.flush(), "
     "Sink::File(output) => { if output.opened.is_none() { output.opened = Some(apart::create(output.files, &output.name)?); } "
     "match &mut output.opened { Some(file) => { file.flush()?; match output.purpose { Purpose::Key => synchronize(output.files, file), "
     "Purpose::Public | Purpose::Secret => Ok(()), } } None => unreachable!(), } } }",
     "what the stream or the file answers, and for a made key the system; an output that no option names"),
    ("jose/src/apart.rt", "create", "if is_one_of(files, own, &name.others()) { "
     "return Err(io::Error::from(ErrorKind::ResourceBusy)); }", "an output that is the file of the content, of the keys or of the other output"),
    ("jose/src/apart.rt", "may_be", "match answer { Ok(other) => match other.file { Some(other) => is_same_file(file, other), None => false, }, "
     "Err(e) => !is_absence(place, e.kind()) && !own.is_empty, }", "what the system says of another file: which it is, or that it is not there"),
    ("jose/src/apart.rt", "is_absence", "fn is_absence(place: Place<'_>, kind: ErrorKind) -> bool", "matched, and not made"),
    ("jose/src/apart.rt", "is_absence", "Place::Named(_) => matches!(kind, ErrorKind::NotFound),", "matched, and not made"),
    ("jose/src/files.rt", "synchronize", "match files.sync(file) { Err(e) if e.kind() == io::ErrorKind::InvalidInput || e.kind() == io::ErrorKind::Unsupported => { Ok(()) } "
     "result => result, }", "what the system answers; that a pipe or a terminal cannot be synchronized is no failure"),
    ("jose/src/files.rt", "inputs", "let text = command.option_at('i').or(command.option_at('s'));", "options of the command"),

    ("lakhdzeva/src/growing.rt", "", "impl Output for GrowingOutput", "it fails if memory is refused, and in no other case"),
    ("lakhdzeva/src/growing.rt", "GrowingOutput::write", "if octets.is_empty() { return Ok(0); } self.is_finished = false; "
     "if self.octets.extend_from_slice(octets).is_err() { self.failures = self.failures.saturating_add(1); return Err(Fault::Writing); } Ok(octets.len())",
     "memory that was refused; a write of nothing"),
    ("lakhdzeva/src/growing.rt", "GrowingOutput::finish", "self.is_finished = true; self.endings = self.endings.saturating_add(1); Ok(())", "it never fails"),
    ("lakhdzeva/src/places.rt", "deliver", "if octets.len() > place.len() { return number(Refusal::Write); }", "a place that is too small"),
    ("lakhdzeva/src/places.rt", "deliver_payload", "if payload.len() > place.len() { return number(Refusal::Write); }", "a place that is too small"),
    ("lakhdzeva/src/places.rt", "deliver_both", "if both.text.len() > text.len() || both.content.len() > content.len() { return number(Refusal::Write); }",
     "a place that is too small"),
    ("lakhdzeva/src/answers.rt", "good_number", "let mut number = 16; if uses.sign { number += 1; } if uses.verify { number += 2; } if uses.encrypt { number += 4; } "
     "if uses.decrypt { number += 8; } number", "what a key may do, which is no status"),
    ("lakhdzeva/src/places.rt", "in_memory", "Refusal::Read | Refusal::Write => Refusal::Memory,", "inputs in memory, which never fail, and a GrowingOutput"),

    # What the system is asked. Only this file asks it.
    ("jose/src/system.rt", "", "use std::fs::{File, Metadata, OpenOptions, metadata};", "files"),
    ("jose/src/system.rt", "", "use std::os::unix::fs::{FileTypeExt, MetadataExt, OpenOptionsExt};", "modes, and numbers of files"),
    ("jose/src/lib.rt", "", "use std::os::fd::AsRawFd;", "the number of a file that is held in place of a closed stream"),
    ("jose/src/lib.rt", "", "use std::process::ExitCode;", "the status of the program"),
    ("command/src/main.rt", "", "use std::process::ExitCode;", "the status of the program"),
    ("command/src/main.rt", "main", "fn main(rt: HostRuntime) -> ExitCode { jose::start(rt) }", "it does nothing else"),
    ("jose/src/lib.rt", "start", "fn start(rt: HostRuntime) -> ExitCode { let result = perform(rt.alloc(), &rt, rt.stdin(), rt.stdout()); "
     "let mut errors = WriterOutput::new(rt.stderr()); ExitCode::from(report(result, &mut errors)) }", "the system and its streams"),
    ("tools/src/lib.rt", "", "use std::os::fd::AsRawFd;", "the number of a file that is held in place of a closed stream"),
    ("tools/src/lib.rt", "", "use std::process::ExitCode;", "the status of the program"),
    ("toolbox/src/main.rt", "", "use std::process::ExitCode;", "the status of the program"),
    ("toolbox/src/main.rt", "main", "fn main(rt: HostRuntime) -> ExitCode { tools::start(rt) }", "it does nothing else"),
    ("tools/src/lib.rt", "start", "fn start(rt: HostRuntime) -> ExitCode { let mut disk = Disk { files: &rt, input: rt.stdin(), output: rt.stdout(), }; "
     "let mut errors = WriterOutput::new(rt.stderr()); ExitCode::from(perform(rt.alloc(), &rt, &mut disk, rt.stdin(), rt.stdout(), &mut errors,)) }", "the system and its streams"),
    ("tools/src/disk.rt", "", "use std::fs::{File, Metadata, OpenOptions, remove_file, rename, symlink_metadata};", "files"),
    ("tools/src/disk.rt", "", "use std::os::fd::AsFd;", "the number of a new file, to give it an owner"),
    ("tools/src/disk.rt", "", "use std::os::unix::fs::{MetadataExt, OpenOptionsExt, fchown};", "modes, owners and numbers of files"),
    ("tools/src/disk.rt", "Disk::create_new", "match options.open(self.files, path) { Ok(file) => Ok(file), Err(e) => Err(why_not_created(e.kind())), }", "what the system answers"),
    ("tools/src/disk.rt", "Disk::open_old", "needs_file(symlink_metadata(self.files, path))?; let mut options = OpenOptions::new(); options.read(true).write(true); "
     "let Ok(file) = options.open(self.files, path) else { return Err(NotOpened::NotWritable); }; let found = needs_file(file.metadata())?; "
     "let named = needs_file(symlink_metadata(self.files, path))?; if !is_same_file(&found, &named) { return Err(NotOpened::NoFile); } "
     "if found.mode() & OTHERS_BITS == 0 { Ok(file) } else { Err(NotOpened::Shared) }", "the set: a regular file, no link, open to its owner alone"),
    ("tools/src/disk.rt", "Disk::own_as", "let (Ok(made), Ok(found)) = (new.metadata(), old.metadata()) else { return Err(Fault::Writing); }; let group = Some(found.gid()); "
     "if made.uid() == found.uid() { let _ = fchown(new.as_fd(), None, group); return Ok(()); } caused(fchown(new.as_fd(), Some(found.uid()), group))",
     "the owner of the open set"),
    ("tools/src/disk.rt", "needs_file", "match found { Ok(found) if found.is_file() => Ok(found), Ok(found) if found.is_symlink() => Err(NotOpened::Link), _ => Err(NotOpened::NoFile), }",
     "what the system answers of the set"),
    ("tools/src/disk.rt", "is_same_file", "one.dev() == other.dev() && one.ino() == other.ino()", "whether a name is that of the open set"),
    ("tools/src/disk.rt", "Disk::sync_folder", "let Ok(folder) = File::open(self.files, folder_of(path)) else { return Err(Fault::Writing); }; "
     "match folder.sync_all() { Err(e) if cannot_be_synchronized(e.kind()) => Ok(()), answer => caused(answer), }", "what the system answers; that a folder cannot be synchronized is no failure"),
    ("tools/src/disk.rt", "in_reading", "match text { Ok(text) => Ok(text), Err(Refusal::Memory) => Err(Refusal::Memory), Err(_) => Err(Refusal::Read), }",
     "the refusal of a reading"),
    ("tools/src/disk.rt", "caused", "match answer { Ok(()) => Ok(()), Err(_) => Err(Fault::Writing), }", "what the system answers"),
    ("tools/src/disk.rt", "why_not_created", "fn why_not_created(kind: ErrorKind) -> NotCreated { match kind { ErrorKind::AlreadyExists => NotCreated::Exists, _ => NotCreated::Failed, } }", "matched, and not made"),
    ("tools/src/disk.rt", "cannot_be_synchronized", "fn cannot_be_synchronized(kind: ErrorKind) -> bool { matches!(kind, ErrorKind::InvalidInput | ErrorKind::Unsupported) }", "matched, and not made"),
    ("tools/src/disk.rt", "write_whole_to", "match emit(&mut output, octets) { Ok(()) => Ok(()), Err(_) => Err(Fault::Writing), }", "the fault of an output"),
    ("tools/src/changing.rt", "reading_cause", "match refusal { Refusal::Memory => ToolCause::Memory, _ => ToolCause::At(place, Why::Unread), }", "the refusal of a reading"),
    ("tools/src/holding.rt", "refused_by", "Refusal::Memory => ToolCause::Memory,", "the refusal of a reading"),
    ("tools/src/command_files.rt", "", "use std::fs::{File, metadata};", "files"),
    ("tools/src/command_files.rt", "Disk::find", "Err(e) => why_not_found(e.kind()),", "what the system answers"),
    ("tools/src/command_files.rt", "why_not_found", "fn why_not_found(kind: ErrorKind) -> Found { match kind { ErrorKind::NotFound | ErrorKind::NotADirectory => Found::Missing, _ => Found::Closed, } }", "matched, and not made"),
    ("tools/src/look_requests.rt", "explained", "match explain(alloc, &*disk, words) { Ok(text) => Ok(text), Err(_) => Err(ToolCause::Memory), }", "`explain` refuses with Memory alone"),
    ("tools/src/command.rt", "explain", "Err(Refusal::Memory) => Err(Refusal::Memory),", "passed on"),
    ("tools/src/command.rt", "add_command_cause", "Some(WordFault::Memory) => return Err(Refusal::Memory),", "passed on"),
    ("tools/src/command_lines.rt", "fault_line", "WordFault::Memory => Ok(Vec::new(alloc)),", "matched, and not made"),
    ("tools/src/command_words.rt", "", "pub(crate) enum WordFault { Memory, Long(usize), Stray(usize), Unknown(u8), Twice(u8), NoValue(u8), Missing(char), Inputs, Outputs, NoHash(char), }", "the declaration"),
    ("tools/src/command_words.rt", "", "impl From<AllocError> for WordFault", "an allocation that std refused"),
    ("tools/src/command_words.rt", "WordFault::from", "fn from(_: AllocError) -> WordFault { WordFault::Memory }", "an allocation that std refused"),
    ("tools/src/joining.rt", "thumbprint_of", "match thumbprint(alloc, key, HashAlg::S256) { Ok(text) => Ok(Thumbprint { text }), Err(_) => Err(AllocError), }", "`thumbprint` refuses with Memory alone"),
    ("tools/src/joining.rt", "are_octets_of", "same_octets(key.octets(), octets)", "two keys"),
    ("tools/src/tool_cause.rt", "", "#[derive(Drop)] pub enum ToolCause { Usage, Memory, InputTwice, InputSet, Output, NotAllRead, At(Place, Why), }", "the declaration"),
    ("tools/src/tool_cause.rt", "", "impl From<AllocError> for ToolCause", "an allocation that std refused"),
    ("tools/src/tool_cause.rt", "ToolCause::from", "fn from(_: AllocError) -> ToolCause { ToolCause::Memory }", "an allocation that std refused"),
    ("tools/src/tool_cause.rt", "", "impl<T: Drop> From<AllocFailed<T>> for ToolCause", "an allocation that std refused"),
    ("tools/src/tool_cause.rt", "ToolCause::from", "fn from(_: AllocFailed<T>) -> ToolCause { ToolCause::Memory }", "an allocation that std refused"),
    ("tools/src/looking.rt", "open", "Err(Refusal::Memory) => Err(ToolCause::Memory),", "the refusal of a reading"),
    ("tools/src/tool_cause.rt", "unless_memory", "match refusal { Refusal::Memory => Err(AllocError), other => Ok(other), }", "a refusal of memory"),
    ("tools/src/tool_report.rt", "add_cause", "ToolCause::Memory => add_named(line, words.tool, \": jose: 4 Memory\"),", "its text: matched, and not made"),
    ("jose/src/system.rt", "", "ReadFiles for HostRuntime", "the system"),
    ("jose/src/system.rt", "", "WriteFiles for HostRuntime", "the system"),
    ("jose/src/system.rt", "", "System for HostRuntime", "the system"),
    ("jose/src/system.rt", "HostRuntime::open", "fn open(&self, path: &str) -> io::Result<File> { File::open(self, path) }", "the file of this name, as it is"),
    ("jose/src/system.rt", "HostRuntime::open_device", "fn open_device(&self, path: &str) -> io::Result<Option<File>> { if metadata(self, path)?.file_type().is_char_device() { "
     "Ok(Some(File::open(self, path)?)) } else { Ok(None) } }", "the file of this name, if it is a character device; what the system answers"),
    ("jose/src/system.rt", "HostRuntime::open_uncut", "fn open_uncut(&self, name: &OutputName<'_>) -> io::Result<UncutFile> { Ok(UncutFile(output_options(name.mode).open(self, name.path)?)) }", "the file of this name; what the system answers"),
    ("jose/src/system.rt", "HostRuntime::own_status", "fn own_status(&self, uncut: &UncutFile) -> io::Result<Status> { Ok(status_of(&uncut.0.metadata()?)) }", "what the system answers"),
    ("jose/src/system.rt", "HostRuntime::status", "fn status(&self, place: Place<'_>) -> io::Result<Status> { match place { Place::StandardInput => Ok(status_of(&metadata(self, "
     "STANDARD_INPUT)?)), Place::StandardOutput => Ok(status_of(&metadata(self, STANDARD_OUTPUT)?)), Place::Named(path) => "
     "Ok(status_of(&metadata(self, path)?)), } }", "what the system answers of this place"),
    ("jose/src/system.rt", "HostRuntime::cut", "fn cut(&self, uncut: UncutFile, _name: &OutputName<'_>) -> io::Result<File> { let UncutFile(file) = uncut; match file.set_len(0) { Err(e) if "
     "e.kind() != io::ErrorKind::InvalidInput => Err(e), _ => Ok(file), } }", "what the system answers; that a file of another kind has no length is no failure"),
    ("jose/src/system.rt", "HostRuntime::sync", "fn sync(&self, file: &File) -> io::Result<()> { file.sync_all() }", "what the system answers"),
    ("jose/src/system.rt", "HostRuntime::args", "fn args(&self) -> Result<Vec<String>, Refusal> { match std::env::args(self) { Ok(args) => Ok(args.collect(self.alloc())?), Err(e) if "
     "e.kind() == io::ErrorKind::OutOfMemory => Err(Refusal::Memory), Err(_) => Err(Refusal::Usage), } }", "the program's arguments; std's error for memory; an argument that is not UTF-8"),
    ("jose/src/system.rt", "HostRuntime::output_name", "fn output_name<'a>(&self, path: &'a str, mode: u32, others: [Option<Place<'a>>; 3],) -> OutputName<'a> { OutputName { path, mode, others } }", "it asks nothing"),
    ("jose/src/system.rt", "OutputName::others", "fn others(&self) -> [Option<Place<'a>>; 3] { self.others }", "it asks nothing"),
    ("jose/src/system.rt", "output_options", "fn output_options(mode: u32) -> OpenOptions { let mut options = OpenOptions::new(); options.mode(mode); "
     "options.read(false).write(true).append(false); options.truncate(false).create(true).create_new(false); options }", "how an output is opened"),
    ("jose/src/system.rt", "status_of", "fn status_of(found: &Metadata) -> Status { let kind = found.file_type(); if kind.is_file() { return Status { file: "
     "Some(FileId::Regular(found.dev(), found.ino())), is_empty: found.len() == 0, }; } Status { file: "
     "kind.is_block_device().then_some(FileId::Block(found.rdev())), is_empty: false, } }", "the numbers of a device and of an inode, in all their bits"),

    # Statuses.
    ("jose/src/ending.rt", "report", "fn report<O: Output>(outcome: Result<(), Refusal>, out: &mut O) -> u8 { match outcome { Ok(()) => 0, Err(refusal) => { let _ = "
     "write_line(out, refusal); 1 } } }", "0 after success, and 1 after a refusal"),
    ("tools/src/ending.rt", "report", "fn report<O: Output>(outcome: Result<(), Cause>, out: &mut O) -> u8 { match outcome { Ok(()) => 0, Err(cause) => { let _ = "
     "write_line(out, cause); 1 } } }", "0 after success, and 1 after a refusal"),
    ("lakhdzeva/src/places.rt", "number", "fn number(refusal: Refusal) -> u32 { match refusal { Refusal::Usage => 1, Refusal::Read => 2, Refusal::Write => 3, Refusal::Memory => 4, "
     "Refusal::Random => 5, Refusal::Base64 => 6, Refusal::Json => 7, Refusal::Number => 8, Refusal::Key => 9, Refusal::Form => 10, "
     "Refusal::Header => 11, Refusal::Unsupported => 12, Refusal::NoAlgorithm => 13, Refusal::KeyDoesNotFit => 14, Refusal::Limit => 15, "
     "Refusal::NotCompact => 16, Refusal::NotOpened => 17, } }", "the number of each refusal"),

    # Memory that is asked for by a number, or in a loop that does not go through a list.
    ("octets/src/memory.rt", "MemoryOutput::new", "Vec::with_capacity(alloc, room)?", "the room that the caller asks for"),
    ("octets/src/failing.rt", "FailingOutput::new", "MemoryOutput::new(alloc, room)?", "the room that the caller asks for"),
    ("octets/src/whole.rt", "read_to_end", "'reads: loop { let n = input.read(&mut buf)?; if n == 0 { return Ok(octets); } octets.extend_from_slice(&buf[..n])?; }",
     "all that an input gives"),
    ("tools/src/command_words.rt", "words_read", "while let [word, tail @ ..] = rest { word_read(options, at, word.as_bytes(), &mut walk)?; at += 1; rest = tail; }", "one word after another"),
    ("objects/src/shared.rt", "SharedOctets::new", "octets: Rc::new(alloc, octets)?,", "one for each parameter of a header"),
    ("objects/src/shared.rt", "SharedText::new", "text: Rc::new(alloc, String::from_str(alloc, text)?)?,", "one for each name of a header"),

    # Comparisons, in the crates that compare tags and signatures.
    ("octets/src/lanes.rt", "same_octets", "fn same_octets(a: &[u8], b: &[u8]) -> bool { if a.len() != b.len() { return false; } "
     "let (blocks, _) = a.as_chunks::<32>(); let (others, _) = b.as_chunks::<32>(); let mut difference = 0u8; "
     "for (i, block) in blocks.iter().enumerate() { difference |= block_difference(block, &others[i]); } "
     "for i in 32 * blocks.len()..a.len() { difference |= a[i] ^ b[i]; } difference == 0 }", "all octets are read, whatever they are"),
    ("octets/src/lanes.rt", "block_difference", "{ (u8x32::from_array(*a) ^ u8x32::from_array(*b)).reduce_or() }", "all octets of two blocks"),
    ("modes/src/gcm.rt", "gcm_open", "if buf.len() as u64 > LONGEST { return None; } let mut hash = aad_hash(cipher, aad); hash.feed(buf); "
     "let tag_mask = tag_mask(cipher, iv); "
     "let expected = tag_of(hash, &bit_length(aad.len() as u64), &bit_length(buf.len() as u64), &tag_mask,); "
     "if !same_octets(&expected, tag) { return None; } KeyStream::start(&counter_block(iv, 2)).apply(cipher, buf); Some(buf.len()) }", "the tag of GCM"),
    ("ciphers/src/cbc_hmac.rt", "open_cbc_hmac", "{ let (mac_key, key) = cek.split_at(cek.len() / 2); let mut authentication = Authentication::<H>::start(mac_key, iv, aad); "
     "authentication.update(buf); let mut expected = [0; 32]; let len = authentication.finish(&mut expected); "
     "if !same_octets(&expected[..len], tag) { return None; } cbc_open(&B::under(key), &array(iv), buf) }", "the tag of AES-CBC with HMAC"),
    ("tokens/src/verify/heads.rt", "is_one_of", "{ signatures.iter().any(|signature| same_octets(mac.octets(), signature.signature()) "
     "&& is_alike(head, signature)) }", "the signature"),
    ("ciphers/src/key_wrap.rt", "is_initial", "{ same_octets(a, &INITIAL_VALUE) }", "the constant that AES key wrap puts before the key"),
    ("modes/src/cbc_opening.rt", "padding_of", "if last[i] != value { return None; }", "an octet of the padding; `ciphers` has compared the tag before"),
    ("tokens/src/decrypt/tried.rt", "open_alike", "fn open_alike(one: &Recipient, other: &Recipient) -> bool { if one.encrypted_key().len() > MOST_ENCRYPTED_KEY { return false; } if "
     "!same_octets(one.encrypted_key(), other.encrypted_key()) { return false; } if !has_same_parameters(one.management(), other.management()) { "
     "return false; } match (algorithms_of(one), algorithms_of(other)) { (Some(one), Some(other)) => one.management == other.management && "
     "one.encryption == other.encryption, _ => false, } }", "two recipients, before one is not tried again"),
    ("tokens/src/decrypt/tried.rt", "has_same_parameters", "fn has_same_parameters(one: &KeyManagement, other: &KeyManagement) -> bool { match (one, other) { (KeyManagement::Direct, "
     "KeyManagement::Direct) => true, (KeyManagement::KeyWrap, KeyManagement::KeyWrap) => true, (KeyManagement::Password { p2s, p2c }, "
     "KeyManagement::Password { p2s: other_p2s, p2c: other_p2c, },) => p2c == other_p2c && same_octets(p2s.octets(), other_p2s.octets()), "
     "(KeyManagement::GcmKeyWrap { iv, tag }, KeyManagement::GcmKeyWrap { iv: other_iv, tag: other_tag, },) => iv.octets().len() <= MOST_IV && "
     "tag.octets().len() <= MOST_TAG && same_octets(iv.octets(), other_iv.octets()) && same_octets(tag.octets(), other_tag.octets()), "
     "(KeyManagement::Unknown, _) | (KeyManagement::Direct, _) | (KeyManagement::KeyWrap, _) | (KeyManagement::Password { .. }, _) | "
     "(KeyManagement::GcmKeyWrap { .. }, _) => false, } }", "the parameters of two recipients"),
    ("tokens/src/decrypt/tried.rt", "was_tried", "fn was_tried(keys: &[Key], algorithms: Algorithms, key: &Key) -> bool { keys.iter().any(|earlier| { same_octets(earlier.octets(), "
     "key.octets()) && is_candidate(algorithms, earlier) }) }", "two keys"),
    ("tokens/src/decrypt/salted.rt", "SaltedKeys::salt", "fn salt(&mut self, p2s: &'x [u8]) { if same_octets(self.p2s, p2s) { return; } self.p2s = p2s; salt_each(&mut self.salted, p2s); }", "two salts"),
    ("tokens/src/verify/heads.rt", "is_alike", "fn is_alike(head: &Signature, signature: &Signature) -> bool { same_octets(head.alg().as_bytes(), signature.alg().as_bytes()) && "
     "same_octets(head.protected().as_bytes(), signature.protected().as_bytes(),) }", "the algorithms and the protected headers of two signatures"),
    ("tools/src/words.rt", "is_path_of", "fn is_path_of(path: &[u8], name: &[u8]) -> bool { path.ends_with(name) && (path.len() == name.len() || path[path.len() - name.len() - 1] == b'/') }", "the program's own name, and that of a tool"),
    ("tokens/src/verify/signers.rt", "is_among", "fn is_among(block: &KeyBlock, others: &[KeyBlock]) -> bool { others.iter().any(|other| same_octets(block.octets(), other.octets())) }", "two keys, as HMAC uses them"),
]

# The file that asks the system.
WHOLE = "crates/jose/src/system.rt"
# The parts of std that reach the system.
WORLD = {"fs", "env", "os", "thread", "time", "process", "net", "sync"}
# What keeps memory from being let go.
KEPT = set("forget ManuallyDrop leak into_raw from_raw MaybeUninit transmute thread_local".split())
# Devices that fail when they are told to, and the file that has them.
FAILING, OF_FAILING = {"FailingInput", "FailingOutput", "Failing"}, "crates/octets/src/failing.rt"
STATUSES = {"u8", "u32", "ExitCode"}
CASES = {"Memory", "OutOfMemory", "Reading", "Writing"}
ERRORS = {"AllocError", "AllocFailed", "Partial", "Error", "ErrorKind"}
ENUMS = {"Refusal", "Fault", "ErrorKind", "DecodeAllocError"}
# The names that must not get another name.
NAMED = CASES | ERRORS | ENUMS | {"same_octets", "Result"}
ROOMS = set("""with_capacity with_capacity_and_hasher try_with_capacity reserve reserve_exact try_reserve try_reserve_exact resize resize_with
    try_resize_with repeat repeat_n repeat_with cycle from_elem from_fn from_iter extend extend_from_within unzip partition grow try_grow zeroed
    collect successors allocate spawn Box Rc Arc""".split())
LOOPS = {"loop", "while", "for_each", "try_for_each", "fold", "try_fold"}
ROOM_MACROS = {"vec", "format", "write", "writeln"}
ROOM_DEVICES = {"MemoryOutput", "FailingOutput"}
# In a signature with a `Result`, these say that the function may take memory.
MEMORY = {"Global", "Vec", "String", "Map", "HostRuntime", "self"}
EQUALITIES = set("== != eq ne cmp partial_cmp starts_with ends_with contains strip_prefix strip_suffix simd_eq simd_ne".split())
# What ends a side of a comparison, and what makes a sum of octets.
ENDS, SUMS = {"if", "while", "&&", "||", "{", "}", ";", ",", "=", "return"}, {"^", "-", "wrapping_sub", "bitxor"}
ANSWERS = set("""Ok Err ok err is_ok is_err is_ok_and is_err_and unwrap unwrap_or unwrap_or_else unwrap_or_default expect map_err map_or
    map_or_else or or_else and and_then iter into_iter""".split())

# How a place that needs a row is recognized, and the advice for it.
ADVICE = {
    "cause": "Memory, Read, Write and faults come only from an error for memory or from a failed device; refuse with another cause, or add a row with that error",
    "name": "it must have one name only; import it as it is, and write its path",
    "device": "a device passes failures on as they are; do without it, or add a row, and its file to PASSING",
    "room": "memory is asked for by what is there to be kept, and not by a number or in a loop without a list; do so, or add a row with what bounds it",
    "kept": "what a call asked for is let go when it ends; do without it",
    "all": "import the names that are used, each by itself",
    "world": "the system is asked in system.rt alone; do without it, or add a row with what it asks",
    "status": "a status is made from a refusal; make it so, or add a row",
    "public": "the root exports the public names, each by itself; do so",
    "equality": "tags and signatures are compared by same_octets alone; use it, or add a row that says what else is compared",
    "answer": "what a file or a stream answers is passed on as it is; do so, or add a row that says what this answers",
}


def paths_of(words):
    """The paths of an import, each with the name that it gets in place of its own, or None."""
    prefix, at = [], 0
    while at < len(words):
        if words[at] == "{":
            items, depth = [[]], 0
            for word in words[at + 1:-1]:
                depth += (word == "{") - (word == "}")
                items = items + [[]] if word == "," and not depth else items[:-1] + [items[-1] + [word]]
            return [(prefix + path, name) for item in items if item for path, name in paths_of(item)]
        if words[at] == "as":
            return [(prefix, words[at + 1])]
        prefix += [words[at]] if words[at] != "::" else []
        at += 1
    return [(prefix, None)]


def renamed(words):
    """The name that an import or a `type` renames, or brings in without the name of its enum, or None."""
    if words[0] == "type":
        named = NAMED & set(words[words.index("="):]) if "=" in words else ()
        return next(iter(sorted(named)), None)
    for path, name in paths_of(words[1:]):
        if name and NAMED & {*path, name} or ENUMS & set(path[:-1]) or path[-1] == "same_octets" and path[-2:-1] not in (["octets"], ["lanes"]):
            return "::".join(path)
    return None


def before_path(tokens, at):
    """The word before the path that ends here."""
    while text_at(tokens, at - 1) == "::":
        at -= 2
    return text_at(tokens, at - 1)


def is_type(tokens, at):
    """Whether the word at this place is the error of a `Result`."""
    return text_at(tokens, at + 1) in (">", ">>") and before_path(tokens, at) == ","


def is_trait(tokens, at):
    """Whether this `Read` or `Write` is std's trait."""
    before = text_at(tokens, at - 1)
    return before in (":", "+") or text_at(tokens, at + 1) == "for" or before == "::" and text_at(tokens, at - 2) in ("io", "fmt")


def is_of_numbers(tokens, at):
    """Whether this comparison has a number or a length on one side, and no sum of octets on a side."""
    start = end = at
    while start and tokens[start - 1].text not in ENDS:
        start -= 1
    while end + 1 < len(tokens) and tokens[end + 1].text not in ENDS:
        end += 1
    left = [it.text for it in tokens[start:at]]
    return not SUMS & {it.text for it in tokens[start:end + 1]} and (
        left[-4:] == [".", "len", "(", ")"] or text_at(tokens, at + 1)[:1].isdigit() or left[-1:] and left[-1][:1].isdigit())


def advice_at(part, at):
    """The advice for the word at this place, if no row has it, or None for a word that needs no row."""
    tokens, crate = part.tokens, part.path.split("/")[1]
    word, before, after = tokens[at].text, text_at(tokens, at - 1), text_at(tokens, at + 1)
    # The type of a field, such as `Rc<String>`, asks for no memory.
    is_field = not part.function and before == ":" and after == "<"
    if word in CASES or word == "unsafe" or word in ERRORS and not is_type(tokens, at):
        return "cause"
    if word in ("kind", "is_memory") and before == "." or word in ("Refusal", "Fault") and before_path(tokens, at) == "for":
        return "cause"
    if word in ("Read", "Write", "Input", "Output", "ReadFiles", "WriteFiles", "System") and after == "for":
        return "device"
    if word in ("Read", "Write") and not is_trait(tokens, at):
        return "cause"
    if word in ROOMS and not is_field or word in ROOM_MACROS and after == "!" or word in ROOM_DEVICES and after == "::":
        return "room"
    if word in KEPT:
        return "kept"
    if word in FAILING and part.path != OF_FAILING:
        return "cause"
    if word in WORLD and before == "::" and text_at(tokens, at - 2) == "std":
        return "world"
    if word[0].isdigit() and not re.match("0(_?[iu]|$)", word) and part.function and status_of(tokens) in STATUSES and crate in ("jose", "lakhdzeva"):
        return "status"
    if word == "mod" and before == "pub" and after != "laws" and (crate, after) != ("tools", "line_laws"):
        return "public"
    if word == "same_octets" or word in EQUALITIES and crate in COMPARING and not is_of_numbers(tokens, at):
        return "equality"
    return "answer" if word in ANSWERS and part.path.startswith(PASSING) else None


def words_to(tokens, at, *ends):
    """The words from a place to the first that is one of the ends and in no brackets."""
    start = at
    while at < len(tokens) and tokens[at].text not in ends:
        at = block_end(tokens, at)
    return [it.text for it in tokens[start:at]]


def is_loop_without_list(tokens, at):
    """Whether a loop counts, goes through an array that it writes out, or does not name its items."""
    word, words = tokens[at].text, words_to(tokens, at, "{") if tokens[at].text == "for" else []
    return word in LOOPS or bool(words) and (words[1][0] == "_" or words[words.index("in") + 1] == "[" or not {"..", "..="}.isdisjoint(words))


def status_of(tokens):
    """The type that a function returns, if it is one word."""
    signature = words_to(tokens, 0, "{", ";")
    return signature[-1] if signature[-2:-1] == ["->"] else ""


def needing_rows(part):
    """The places of a part of the code that need a row: where, what, and the advice for one that has none."""
    tokens, at = part.tokens, 0
    signature = words_to(tokens, 0, "{", ";") if part.function else []
    if part.function and tokens[-1].text != ";" and (part.path == WHOLE or "HostRuntime" in signature):
        yield 0, part.function, "world"
    if signature[-2:] == ["->", "bool"] and " ".join(signature).count("[ u8") > 1:
        yield 0, "octets twice", "equality"
    while at < len(tokens):
        if tokens[at].text in ("use", "type"):
            end = next((it for it in range(at, len(tokens)) if tokens[it].text == ";"), len(tokens))
            words = [it.text for it in tokens[at:end]]
            if what := renamed(words):
                yield at, what, "name"
            if words[-1] == "*" and words[1:-1] != ["std", "::", "simd", "::", "prelude", "::"]:
                yield at, "*", "all"
            if KEPT & set(words) or words[1:3] == ["std", "::"] and WORLD & set(words):
                yield at, " ".join(words[1:]), "kept" if KEPT & set(words) else "world"
            at = end
        elif advice := advice_at(part, at):
            yield at, tokens[at].text, advice
        elif "Result" in signature and MEMORY & set(signature) and is_loop_without_list(tokens, at):
            yield at, tokens[at].text, "room"
        at += 1


def spelled(tokens):
    return f" {' '.join(it.text for it in tokens)} "


def found_in(part, code):
    """The places of a part of the code that a row's code covers, and how often that code is there."""
    words, wanted = [it.text for it in part.tokens], [it.text for it in tokens_of(code)]
    starts = [at for at in range(len(words) - len(wanted) + 1) if words[at:at + len(wanted)] == wanted]
    return {start + it for start in starts for it in range(len(wanted))}, len(starts)


def line_of(path, number):
    return read(os.path.join(ROOT, path)).split("\n")[number - 1].strip()


def compare():
    """Reports each row whose code is not there exactly once, and each place without a row. Returns the number of rows."""
    rows, without = collections.defaultdict(dict), []
    for path, function, code, _ in PLACES:
        rows[f"crates/{path}", function][code] = 0
    for part in (it for crate in (*CRATES, "command", "toolbox") for it in parts(crate)):
        covered, counts, left = set(), rows.get((part.path, part.function), {}), collections.defaultdict(list)
        for code in counts:
            places, count = found_in(part, code)
            covered |= places
            counts[code] += count
        for at, what, advice in needing_rows(part):
            if at not in covered:
                left[part.tokens[at].line, advice].append(what)
        without += [(part, line, advice, found) for (line, advice), found in left.items()]
    lost = {place: [code for code, count in counts.items() if count != 1] for place, counts in rows.items()}
    for (path, function), codes in lost.items():
        for code in codes:
            shown = code if len(code) <= 160 else code[:158] + ".."
            fault(f"{path}, {function or 'outside of functions'}: the code of a row in scripts/lib/origins.py is there {rows[path, function][code]} times, "
                  f"and not once: `{shown}`; put it back, or change the row")
    for part, line, advice, found in without:
        # If the code of this row is still there more than once or in part, its places are no further faults.
        here = spelled(it for it in part.tokens if it.line == line)
        if not any(here in spelled(tokens_of(code)) for code in lost.get((part.path, part.function), [])):
            fault(f"{part.path}, line {line}, {part.function or 'outside of functions'}: `{line_of(part.path, line)}` uses {', '.join(dict.fromkeys(found))} "
                  f"without a row in scripts/lib/origins.py: {ADVICE[advice]}")
    return len(PLACES)
