//! A file system in memory: a call can fail, and a crash leaves what was synced.
use std::alloc::{AllocError, Allocator, Global};
use std::cell::RefCell;
use std::fs::{Metadata, OpenFile, OpenOptions};
use std::io;
use std::io::{Cursor, ErrorKind, Read, Seek, SeekFrom, Write};
use std::rc::Rc;
use std::rt::Files;

/// The bytes of a file, and those that a crash leaves.
#[derive(Drop)]
struct Node {
    bytes: Vec<u8>,
    synced: Vec<u8>,
}

/// A file's path, and its node.
#[derive(Drop)]
struct Name {
    path: String,
    node: usize,
}

/// What stands in the file system. Folders are there for good once they are made.
#[derive(Drop)]
struct State {
    nodes: Vec<Node>,
    folders: Vec<String>,
    names: Vec<Name>,
    /// The names that a crash leaves.
    synced: Vec<Name>,
    /// After how many more calls one fails.
    fails_after: u64,
    /// A path, and the file that another process gives that name where none has it.
    arriving: Option<(String, Vec<u8>)>,
    /// After how many more calls that is.
    arrives_after: u64,
}

/// A file system in memory, of which clones are the same one.
#[derive(Drop)]
pub(super) struct MemFiles {
    alloc: Global,
    state: Rc<RefCell<State>>,
}

impl Clone for MemFiles {
    fn clone(&self) -> Result<Self, AllocError> {
        Ok(MemFiles {
            alloc: self.alloc,
            state: self.state.clone()?,
        })
    }
}

/// The folder of a path.
fn folder_of(path: &str) -> &str {
    match path.rsplit_once('/') {
        Some((folder, _)) => folder,
        None => "",
    }
}

impl State {
    /// Counts a call, and fails where it is the one that fails.
    fn step(&mut self) -> io::Result<()> {
        if self.arrives_after == 0 {
            self.arrive()?;
        } else {
            self.arrives_after -= 1;
        }
        if self.fails_after == 0 {
            self.fails_after = u64::MAX;
            return Err(io::Error::from(ErrorKind::Other));
        }
        self.fails_after -= 1;
        Ok(())
    }

    /// Another process gives a file its name, unless one has it.
    fn arrive(&mut self) -> io::Result<()> {
        if let Some((path, bytes)) = self.arriving.take() {
            if self.node_of(path.as_str()).is_err() {
                let node = self.nodes.len();
                self.nodes.push(Node {
                    synced: bytes.clone()?,
                    bytes,
                })?;
                self.names.push(Name { path, node })?;
            }
        }
        Ok(())
    }

    fn is_folder(&self, path: &str) -> bool {
        self.folders.iter().any(|folder| folder.as_str() == path)
    }

    fn node_of(&self, path: &str) -> io::Result<usize> {
        match self.names.iter().find(|name| name.path.as_str() == path) {
            Some(name) => Ok(name.node),
            None => Err(io::Error::from(ErrorKind::NotFound)),
        }
    }

    fn lose_folder(&mut self, path: &str) {
        self.folders.retain(|folder| folder.as_str() != path);
    }

    fn forget(&mut self, path: &str) {
        self.names.retain(|name| name.path.as_str() != path);
    }

    /// The node of a file that is new.
    fn create(&mut self, alloc: Global, path: &str) -> io::Result<usize> {
        if !self.is_folder(folder_of(path)) {
            return Err(io::Error::from(ErrorKind::NotFound));
        }
        let node = self.nodes.len();
        self.nodes.push(Node {
            bytes: Vec::new(alloc),
            synced: Vec::new(alloc),
        })?;
        self.names.push(Name {
            path: String::from_str(alloc, path)?,
            node,
        })?;
        Ok(node)
    }

    /// From now on a crash leaves the names of a folder as they are.
    fn sync_names(&mut self, alloc: Global, folder: &str) -> io::Result<()> {
        self.synced
            .retain(|name| folder_of(name.path.as_str()) != folder);
        for name in &self.names {
            if folder_of(name.path.as_str()) == folder {
                self.synced.push(Name {
                    path: String::from_str(alloc, name.path.as_str())?,
                    node: name.node,
                })?;
            }
        }
        Ok(())
    }

    /// What a crash leaves.
    fn crash(&mut self, alloc: Global) -> io::Result<()> {
        self.names.clear();
        for name in &self.synced {
            self.names.push(Name {
                path: String::from_str(alloc, name.path.as_str())?,
                node: name.node,
            })?;
        }
        for node in self.nodes.iter_mut() {
            node.bytes = node.synced.clone()?;
        }
        Ok(())
    }
}

impl MemFiles {
    /// A file system with one folder, `/d`, in that of all, in which nothing is.
    pub(super) fn new(alloc: Global) -> Result<MemFiles, AllocError> {
        let mut folders = Vec::new(alloc);
        folders.push(String::from_str(alloc, "/")?)?;
        folders.push(String::from_str(alloc, "/d")?)?;
        let state = RefCell::new(State {
            nodes: Vec::new(alloc),
            folders,
            names: Vec::new(alloc),
            synced: Vec::new(alloc),
            fails_after: u64::MAX,
            arriving: None,
            arrives_after: u64::MAX,
        });
        Ok(MemFiles {
            alloc,
            state: Rc::new(alloc, state)?,
        })
    }

    /// After so many more calls one fails.
    pub(super) fn fail_after(&self, calls: u64) -> io::Result<()> {
        self.state.try_borrow_mut()?.fails_after = calls;
        Ok(())
    }

    /// After so many more calls another process gives a file of these bytes this name, unless one has it then.
    pub(super) fn arrive_after(&self, calls: u64, path: &str, bytes: &[u8]) -> io::Result<()> {
        let mut guard = self.state.try_borrow_mut()?;
        let state = &mut *guard;
        let path = String::from_str(self.alloc, path)?;
        state.arriving = Some((path, Vec::from_slice(self.alloc, bytes)?));
        state.arrives_after = calls;
        Ok(())
    }

    /// Somebody takes an empty folder away.
    pub(super) fn lose_folder(&self, path: &str) -> io::Result<()> {
        self.state.try_borrow_mut()?.lose_folder(path);
        Ok(())
    }

    /// The machine crashes.
    pub(super) fn crash(&self) -> io::Result<()> {
        self.state.try_borrow_mut()?.crash(self.alloc)
    }
}

/// An open file, or an open folder, which has no node.
#[derive(Drop)]
pub(super) struct MemFile {
    files: MemFiles,
    path: String,
    node: Option<usize>,
    at: usize,
}

impl Alloc for MemFiles {
    type A = Global;

    fn alloc(&self) -> Global {
        self.alloc
    }
}

impl Files for MemFiles {
    type File = MemFile;

    type Dir = Cursor<Vec<u8>>;

    fn open_file(&self, how: &OpenOptions, path: &str) -> io::Result<MemFile> {
        let mut guard = self.state.try_borrow_mut()?;
        let state = &mut *guard;
        state.step()?;
        let node = if state.is_folder(path) {
            if how.asks_create_new() {
                return Err(io::Error::from(ErrorKind::AlreadyExists));
            }
            None
        } else {
            match state.node_of(path) {
                Ok(_) if how.asks_create_new() => {
                    return Err(io::Error::from(ErrorKind::AlreadyExists));
                }
                Ok(node) => Some(node),
                Err(_) if how.asks_create() || how.asks_create_new() => {
                    Some(state.create(self.alloc, path)?)
                }
                Err(error) => return Err(error),
            }
        };
        if how.asks_truncate() {
            if let Some(node) = node {
                if let Some(node) = state.nodes.get_mut(node) {
                    node.bytes.clear();
                }
            }
        }
        Ok(MemFile {
            files: self.clone()?,
            path: String::from_str(self.alloc, path)?,
            node,
            at: 0,
        })
    }

    fn open_dir(&self, path: &str) -> io::Result<Cursor<Vec<u8>>> {
        let mut guard = self.state.try_borrow_mut()?;
        let state = &mut *guard;
        state.step()?;
        let folder = path.trim_end_matches('/');
        let mut names = Vec::new(self.alloc);
        for path in state
            .names
            .iter()
            .map(|name| &name.path)
            .chain(&state.folders)
        {
            if let Some((above, name)) = path.rsplit_once('/') {
                if above == folder {
                    names.extend_from_slice(name.as_bytes())?;
                    names.push(0)?;
                }
            }
        }
        Ok(Cursor::new(names))
    }

    fn metadata(&self, path: &str) -> io::Result<Metadata> {
        let mut guard = self.state.try_borrow_mut()?;
        let state = &mut *guard;
        state.step()?;
        if state.is_folder(path) {
            return Ok(Metadata::of_dir());
        }
        let node = state.node_of(path)?;
        match state.nodes.get(node) {
            Some(node) => Ok(Metadata::of_file(node.bytes.len() as u64)),
            None => Err(io::Error::from(ErrorKind::NotFound)),
        }
    }

    fn symlink_metadata(&self, path: &str) -> io::Result<Metadata> {
        self.metadata(path)
    }

    fn copy(&self, _from: &str, _to: &str) -> io::Result<u64> {
        Err(io::Error::from(ErrorKind::Unsupported))
    }

    fn rename(&self, from: &str, to: &str) -> io::Result<()> {
        let mut guard = self.state.try_borrow_mut()?;
        let state = &mut *guard;
        state.step()?;
        if !state.is_folder(folder_of(to)) {
            return Err(io::Error::from(ErrorKind::NotFound));
        }
        let path = String::from_str(self.alloc, to)?;
        if state.is_folder(from) {
            state.lose_folder(from);
            state.folders.push(path)?;
            return Ok(());
        }
        let node = state.node_of(from)?;
        if state.is_folder(to) {
            return Err(io::Error::from(ErrorKind::IsADirectory));
        }
        state.forget(to);
        state.forget(from);
        state.names.push(Name { path, node })?;
        Ok(())
    }

    fn hard_link(&self, original: &str, link: &str) -> io::Result<()> {
        let mut guard = self.state.try_borrow_mut()?;
        let state = &mut *guard;
        state.step()?;
        let node = state.node_of(original)?;
        if state.is_folder(link) || state.node_of(link).is_ok() {
            return Err(io::Error::from(ErrorKind::AlreadyExists));
        }
        let path = String::from_str(self.alloc, link)?;
        state.names.push(Name { path, node })?;
        Ok(())
    }

    fn remove_file(&self, path: &str) -> io::Result<()> {
        let mut guard = self.state.try_borrow_mut()?;
        let state = &mut *guard;
        state.step()?;
        if state.is_folder(path) {
            return Err(io::Error::from(ErrorKind::IsADirectory));
        }
        state.node_of(path)?;
        state.forget(path);
        Ok(())
    }

    fn create_dir(&self, path: &str) -> io::Result<()> {
        let mut guard = self.state.try_borrow_mut()?;
        let state = &mut *guard;
        state.step()?;
        if state.is_folder(path) || state.node_of(path).is_ok() {
            return Err(io::Error::from(ErrorKind::AlreadyExists));
        }
        if !state.is_folder(folder_of(path)) {
            return Err(io::Error::from(ErrorKind::NotFound));
        }
        let path = String::from_str(self.alloc, path)?;
        state.folders.push(path)?;
        Ok(())
    }

    fn remove_dir(&self, _path: &str) -> io::Result<()> {
        Err(io::Error::from(ErrorKind::Unsupported))
    }

    fn remove_dir_all<B: Allocator>(&self, _alloc: B, _path: &str) -> io::Result<()> {
        Err(io::Error::from(ErrorKind::Unsupported))
    }
}

impl Read for MemFile {
    fn read(&mut self, buf: &mut [u8]) -> io::Result<usize> {
        let mut guard = self.files.state.try_borrow_mut()?;
        let state = &mut *guard;
        state.step()?;
        let Some(node) = self.node else {
            return Err(io::Error::from(ErrorKind::IsADirectory));
        };
        let Some(node) = state.nodes.get(node) else {
            return Ok(0);
        };
        let Some(mut rest) = node.bytes.get(self.at..) else {
            return Ok(0);
        };
        let n = rest.read(buf)?;
        self.at = self.at.saturating_add(n);
        Ok(n)
    }
}

impl Write for MemFile {
    fn write(&mut self, buf: &[u8]) -> io::Result<usize> {
        let mut guard = self.files.state.try_borrow_mut()?;
        let state = &mut *guard;
        state.step()?;
        let Some(node) = self.node else {
            return Err(io::Error::from(ErrorKind::IsADirectory));
        };
        // fewer bytes than were asked, as a system may
        let n = buf.len().min(40);
        if let Some(node) = state.nodes.get_mut(node) {
            node.bytes.extend_from_slice(&buf[..n])?;
        }
        Ok(n)
    }

    fn flush(&mut self) -> io::Result<()> {
        Ok(())
    }
}

impl Seek for MemFile {
    fn seek(&mut self, _to: SeekFrom) -> io::Result<u64> {
        Err(io::Error::from(ErrorKind::Unsupported))
    }
}

impl OpenFile for MemFile {
    fn metadata(&self) -> io::Result<Metadata> {
        let mut guard = self.files.state.try_borrow_mut()?;
        let state = &mut *guard;
        state.step()?;
        match self.node {
            None => Ok(Metadata::of_dir()),
            Some(node) => match state.nodes.get(node) {
                Some(node) => Ok(Metadata::of_file(node.bytes.len() as u64)),
                None => Err(io::Error::from(ErrorKind::NotFound)),
            },
        }
    }

    fn set_len(&self, _size: u64) -> io::Result<()> {
        Err(io::Error::from(ErrorKind::Unsupported))
    }

    fn sync_all(&self) -> io::Result<()> {
        let mut guard = self.files.state.try_borrow_mut()?;
        let state = &mut *guard;
        state.step()?;
        let Some(node) = self.node else {
            return state.sync_names(self.files.alloc, self.path.as_str());
        };
        if let Some(node) = state.nodes.get_mut(node) {
            node.synced = node.bytes.clone()?;
        }
        Ok(())
    }

    fn sync_data(&self) -> io::Result<()> {
        self.sync_all()
    }
}
