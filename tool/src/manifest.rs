//! The manifest of a file, `FILE.manifest` beside it: what the file holds, and the SHA-256 of it and of the file that it was made from.
use crate::failure::{Cause, Failure};
use crate::kinds::{named, Kind};
use crate::names::shown;
use crate::summary::Summary;
use serde_json::{json, Value};
use std::ffi::OsString;
use std::fs;
use std::io::ErrorKind;
use std::path::{Path, PathBuf};

/// What a file is held to.
#[derive(Debug, PartialEq)]
pub struct Manifest {
    /// The manifest's own name, as messages show it.
    pub name: String,
    pub kind: &'static Kind,
    pub records: u64,
    pub sha256: String,
    /// The SHA-256 of the file that this one was made from.
    pub from: String,
}

/// The name of a file's manifest.
pub fn beside(path: &Path) -> PathBuf {
    let mut name = OsString::from(path);
    name.push(".manifest");
    PathBuf::from(name)
}

/// A file as a manifest speaks of it.
pub struct Of<'a> {
    pub kind: &'a Kind,
    pub bytes: u64,
    pub sha256: &'a str,
}

/// The text of a manifest.
pub fn text(of: &Of, records: u64, summary: &Summary, from: &Of) -> String {
    let value = json!({
        "ropeinstant": env!("CARGO_PKG_VERSION"),
        "kind": of.kind.name,
        "record_bytes": of.kind.size(),
        "records": records,
        "bytes": of.bytes,
        "sha256": of.sha256,
        "settings": summary.settings_json(),
        "from": {"kind": from.kind.name, "bytes": from.bytes, "sha256": from.sha256},
    });
    format!("{:#}\n", value)
}

impl Manifest {
    /// The manifest of a file, where there is one.
    pub fn of(path: &Path) -> Result<Option<Manifest>, Failure> {
        let beside = beside(path);
        let bytes = match fs::read(&beside) {
            Ok(bytes) => bytes,
            Err(error) if matches!(error.kind(), ErrorKind::NotFound) => return Ok(None),
            Err(error) => return Err(Failure::files(&beside, "cannot read", &error)),
        };
        let name = shown(&beside);
        let parsed = serde_json::from_slice(&bytes).ok().and_then(|value| Manifest::parse(&name, &value));
        let words = "it is not a manifest that this command can read; --no-manifest leaves it aside";
        parsed.map(Some).ok_or_else(|| Cause::Files(words.to_string()).of(&name))
    }

    fn parse(name: &str, value: &Value) -> Option<Manifest> {
        let sum = |value: &Value| value["sha256"].as_str().map(str::to_ascii_lowercase);
        Some(Manifest {
            name: name.to_string(),
            kind: named(value["kind"].as_str()?)?,
            records: value["records"].as_u64()?,
            sha256: sum(value)?,
            from: sum(&value["from"])?,
        })
    }

    /// That the file is of this kind.
    pub fn hold_kind(&self, kind: &Kind) -> Result<(), Cause> {
        if self.kind == kind {
            return Ok(());
        }
        Err(Cause::Differs(format!("{} says that it holds {} records, and {} records are read", self.name, self.kind.name, kind.name)))
    }

    /// That the file has these records and this SHA-256.
    pub fn hold(&self, records: u64, sha256: &str) -> Result<(), Cause> {
        if self.records != records {
            return Err(Cause::Differs(format!("{} says {} records, and it has {}", self.name, self.records, records)));
        }
        if self.sha256 != sha256 {
            return Err(Cause::Differs(format!("{} says SHA-256 {}, and it has {}", self.name, self.sha256, sha256)));
        }
        Ok(())
    }
}

#[cfg(test)]
mod tests {
    use super::*;
    use crate::kinds::{ACES, PIXEL};

    #[test]
    fn what_is_written_is_read() {
        let (of, from) =
            (Of { kind: &ACES, bytes: ACES.size() as u64, sha256: "aa" }, Of { kind: &PIXEL, bytes: PIXEL.size() as u64, sha256: "bb" });
        let value = serde_json::from_str(&text(&of, 1, &Summary::default(), &from)).unwrap();
        let manifest = Manifest::parse("x", &value).unwrap();
        assert_eq!((manifest.kind, manifest.records, &manifest.sha256[..], &manifest.from[..]), (&ACES, 1, "aa", "bb"));
        assert!(manifest.hold(1, "aa").is_ok() && manifest.hold(2, "aa").is_err() && manifest.hold(1, "ab").is_err());
        assert!(manifest.hold_kind(&ACES).is_ok() && manifest.hold_kind(&PIXEL).is_err());
    }
}
