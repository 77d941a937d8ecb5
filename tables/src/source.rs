//! The sources under `crates/`, and the tables in them, found by their names.
use std::fs;
use std::path::{Path, PathBuf};

/// Where a table stands.
pub enum Place {
    /// A constant of the code, of this name.
    Constant(&'static str),
    /// A definition of the proof side, of this name.
    Definition(&'static str),
}

/// A computed table: its place, and its lines after the one that has name and type. In those of a definition a line with
/// no space before it is the head of a clause, and the name is left out there.
pub struct Block {
    place: Place,
    lines: Vec<String>,
}

/// A table in a source: lines `start` to `end` (excluded) of a file.
struct Found {
    file: usize,
    name: String,
    start: usize,
    end: usize,
}

struct File {
    path: PathBuf,
    lines: Vec<String>,
    changed: bool,
}

pub struct Sources {
    root: PathBuf,
    files: Vec<File>,
}

impl Block {
    pub fn new(place: Place, lines: Vec<String>) -> Block {
        Block { place, lines }
    }

    /// The lines of the table under this name.
    fn named(&self, name: &str) -> Vec<String> {
        let constant = matches!(self.place, Place::Constant(_));
        let line = |line: &String| match constant || line.starts_with(' ') {
            true => line.clone(),
            false => format!("{name} {line}"),
        };
        self.lines.iter().map(line).collect()
    }
}

impl Place {
    /// The name of the table whose type stands in a line, if it is the one meant.
    fn name_in<'a>(&self, line: &'a str) -> Option<&'a str> {
        let found = match self {
            Place::Constant(_) => constant(line)?,
            Place::Definition(_) => definition(line)?,
        };
        (found == self.text()).then_some(found)
    }

    /// How many of some lines after that belong to the table.
    fn extent(&self, name: &str, rest: &[String]) -> usize {
        let mut lines = rest.iter();
        match self {
            Place::Constant(_) => lines.position(|line| line == "];").map(|last| last + 1),
            Place::Definition(_) => lines
                .position(|line| !line.starts_with(' ') && line.split(' ').next() != Some(name)),
        }
        .unwrap_or(rest.len())
    }

    fn text(&self) -> &'static str {
        match self {
            Place::Constant(text) | Place::Definition(text) => text,
        }
    }
}

/// The name in a line such as `pub const NAME: [u8; 256] = [` or `static NAME: [u8; 256] = [`.
fn constant(line: &str) -> Option<&str> {
    let line = line.strip_prefix("pub ").unwrap_or(line);
    let line = line
        .strip_prefix("const ")
        .or_else(|| line.strip_prefix("static "))?;
    Some(line.split_once(':')?.0)
}

/// The name in a line such as `abbrev pub NAME : List ℕ`.
fn definition(line: &str) -> Option<&str> {
    let line = line
        .strip_prefix("abbrev ")
        .or_else(|| line.strip_prefix("unfoldable "))?;
    let line = line.strip_prefix("pub ").unwrap_or(line);
    Some(line.split_once(" :")?.0)
}

impl Sources {
    /// All files of code and proofs in the crates under this folder.
    pub fn read(root: &Path) -> Result<Sources, String> {
        let mut sources = Sources {
            root: root.to_path_buf(),
            files: Vec::new(),
        };
        sources.add(&root.join("crates"))?;
        Ok(sources)
    }

    fn add(&mut self, folder: &Path) -> Result<(), String> {
        let failed = |error| format!("{}: {error}", folder.display());
        let mut paths: Vec<PathBuf> = fs::read_dir(folder)
            .map_err(failed)?
            .map(|entry| entry.map(|entry| entry.path()))
            .collect::<Result<_, _>>()
            .map_err(failed)?;
        paths.sort();
        for path in paths {
            if path.is_dir() {
                self.add(&path)?;
            } else if path
                .extension()
                .is_some_and(|end| end == "rt" || end == "antt")
            {
                let text = fs::read_to_string(&path)
                    .map_err(|error| format!("{}: {error}", path.display()))?;
                self.files.push(File {
                    path,
                    lines: text.lines().map(str::to_string).collect(),
                    changed: false,
                });
            }
        }
        Ok(())
    }

    /// The one table at this place.
    fn find(&self, place: &Place) -> Result<Found, String> {
        let mut all = Vec::new();
        for (file, File { lines, .. }) in self.files.iter().enumerate() {
            for i in 0..lines.len() {
                if let Some(name) = place.name_in(&lines[i]) {
                    all.push(Found {
                        file,
                        name: name.to_string(),
                        start: i + 1,
                        end: i + 1 + place.extent(name, &lines[i + 1..]),
                    });
                }
            }
        }
        if all.len() > 1 {
            let paths: Vec<&str> = all.iter().map(|found| self.path(found)).collect();
            return Err(format!("{} stands in {}", place.text(), paths.join(", ")));
        }
        all.pop()
            .ok_or_else(|| format!("{} stands in no source under crates/", place.text()))
    }

    fn path(&self, found: &Found) -> &str {
        let path = &self.files[found.file].path;
        path.strip_prefix(&self.root)
            .ok()
            .and_then(Path::to_str)
            .unwrap_or("?")
    }

    /// The text of a table as it stands.
    pub fn body(&self, place: &Place) -> Result<String, String> {
        let found = self.find(place)?;
        Ok(self.files[found.file].lines[found.start..found.end].join("\n"))
    }

    /// A computed table, with the line that has its name and type.
    pub fn item(&self, block: &Block) -> Result<String, String> {
        let found = self.find(&block.place)?;
        let head = &self.files[found.file].lines[found.start - 1];
        Ok(format!("{head}\n{}\n", block.named(&found.name).join("\n")))
    }

    /// Where a table is not as computed, and how.
    pub fn difference(&self, block: &Block) -> Result<Option<String>, String> {
        let found = self.find(&block.place)?;
        let there = &self.files[found.file].lines[found.start..found.end];
        let computed = block.named(&found.name);
        if there == computed {
            return Ok(None);
        }
        let same = there
            .iter()
            .zip(&computed)
            .take_while(|(old, new)| old == new)
            .count();
        let line = |lines: &[String]| match lines.get(same) {
            Some(line) => line.trim().to_string(),
            None => "(its end)".to_string(),
        };
        Ok(Some(format!(
            "{} differs, {} line {}:\n  there     {}\n  computed  {}",
            found.name,
            self.path(&found),
            found.start + same + 1,
            line(there),
            line(&computed)
        )))
    }

    /// Puts a table in its place.
    pub fn put(&mut self, block: &Block) -> Result<(), String> {
        let found = self.find(&block.place)?;
        let computed = block.named(&found.name);
        let file = &mut self.files[found.file];
        if file.lines[found.start..found.end] != computed {
            file.lines.splice(found.start..found.end, computed);
            file.changed = true;
        }
        Ok(())
    }

    /// Writes the files that have changed, and says how many.
    pub fn write(&self) -> Result<usize, String> {
        let changed = self.files.iter().filter(|file| file.changed);
        let mut count = 0;
        for file in changed {
            fs::write(&file.path, file.lines.join("\n") + "\n")
                .map_err(|error| format!("{}: {error}", file.path.display()))?;
            count += 1;
        }
        Ok(count)
    }
}
