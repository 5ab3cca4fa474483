//! A depot over the system's SQLite, in memory, by its functions in C; its filter is written out by hand.
use super::mail::{first_value, header};
use super::matching::{Comparator, contains, matches};
use super::{codecs, sha256, total};
use std::ffi::{CStr, c_char, c_int, c_void};
use std::ptr;

mod system {
    use super::*;

    #[link(name = "sqlite3")]
    unsafe extern "C" {
        pub fn sqlite3_open(name: *const c_char, database: *mut *mut c_void) -> c_int;
        pub fn sqlite3_close(database: *mut c_void) -> c_int;
        pub fn sqlite3_prepare_v2(
            database: *mut c_void,
            text: *const c_char,
            length: c_int,
            statement: *mut *mut c_void,
            rest: *mut *const c_char,
        ) -> c_int;
        pub fn sqlite3_finalize(statement: *mut c_void) -> c_int;
        pub fn sqlite3_bind_blob(
            statement: *mut c_void,
            place: c_int,
            octets: *const u8,
            length: c_int,
            ending: *const c_void,
        ) -> c_int;
        pub fn sqlite3_bind_int64(statement: *mut c_void, place: c_int, number: i64) -> c_int;
        pub fn sqlite3_step(statement: *mut c_void) -> c_int;
        pub fn sqlite3_reset(statement: *mut c_void) -> c_int;
        pub fn sqlite3_column_int64(statement: *mut c_void, place: c_int) -> i64;
        pub fn sqlite3_column_blob(statement: *mut c_void, place: c_int) -> *const u8;
        pub fn sqlite3_column_bytes(statement: *mut c_void, place: c_int) -> c_int;
    }
}

const ROW: c_int = 100;

struct Database {
    handle: *mut c_void,
}

struct Statement {
    handle: *mut c_void,
}

enum Value<'a> {
    Octets(&'a [u8]),
    Number(i64),
}

impl Database {
    fn in_memory() -> Database {
        Database::open(c":memory:")
    }

    fn open(name: &CStr) -> Database {
        let mut handle = ptr::null_mut();
        unsafe { system::sqlite3_open(name.as_ptr(), &mut handle) };
        let database = Database { handle };
        for text in [
            c"CREATE TABLE IF NOT EXISTS users (user TEXT PRIMARY KEY, last INTEGER NOT NULL, program BLOB) STRICT",
            c"CREATE TABLE IF NOT EXISTS contents (digest BLOB PRIMARY KEY, octets BLOB NOT NULL) STRICT",
            c"CREATE TABLE IF NOT EXISTS entries (user TEXT NOT NULL, number INTEGER NOT NULL, folder BLOB NOT NULL, kind INTEGER NOT NULL, name BLOB NOT NULL, media BLOB NOT NULL, digest BLOB NOT NULL REFERENCES contents, PRIMARY KEY (user, number)) STRICT",
            c"INSERT OR IGNORE INTO users VALUES ('ann', 0, NULL)",
        ] {
            database.prepare(text).run(&[]);
        }
        database
    }

    fn prepare(&self, text: &CStr) -> Statement {
        let mut handle = ptr::null_mut();
        unsafe { system::sqlite3_prepare_v2(self.handle, text.as_ptr(), -1, &mut handle, ptr::null_mut()) };
        Statement { handle }
    }
}

impl Drop for Database {
    fn drop(&mut self) {
        unsafe { system::sqlite3_close(self.handle) };
    }
}

impl Statement {
    // Runs it with these values, and says whether there is a row.
    fn run(&self, values: &[Value]) -> bool {
        unsafe {
            system::sqlite3_reset(self.handle);
            for (place, value) in values.iter().enumerate() {
                let place = place as c_int + 1;
                match value {
                    Value::Octets(octets) => system::sqlite3_bind_blob(self.handle, place, octets.as_ptr(), octets.len() as c_int, ptr::null()),
                    Value::Number(number) => system::sqlite3_bind_int64(self.handle, place, *number),
                };
            }
            system::sqlite3_step(self.handle) == ROW
        }
    }

    fn next(&self) -> bool {
        unsafe { system::sqlite3_step(self.handle) == ROW }
    }

    fn number(&self, place: c_int) -> i64 {
        unsafe { system::sqlite3_column_int64(self.handle, place) }
    }

    fn octets(&self, place: c_int) -> Vec<u8> {
        unsafe {
            let length = system::sqlite3_column_bytes(self.handle, place) as usize;
            match system::sqlite3_column_blob(self.handle, place) {
                octets if octets.is_null() => Vec::new(),
                octets => std::slice::from_raw_parts(octets, length).to_vec(),
            }
        }
    }
}

impl Drop for Statement {
    fn drop(&mut self) {
        unsafe { system::sqlite3_finalize(self.handle) };
    }
}

fn folder_of(message: &[u8]) -> &'static [u8] {
    let fields = header(message).0;
    let has = |name: &[u8], test: &dyn Fn(&[u8]) -> bool| first_value(&fields, name).is_some_and(|value| test(&value));
    if has(b"Subject", &|value| contains(value, b"invoice", Comparator::Casemap)) {
        b"Bills"
    } else if has(b"X-Spam-Flag", &|value| value.eq_ignore_ascii_case(b"YES")) {
        b"Junk"
    } else if has(b"List-Id", &|_| true) {
        b"Lists"
    } else if has(b"To", &|value| matches(value, b"*+*@*", Comparator::Casemap)) {
        b"Plus"
    } else if message.len() > 1_000_000 {
        b"Large"
    } else if has(b"From", &|value| contains(value, b"@example.org", Comparator::Casemap)) {
        b"Ours"
    } else {
        b"INBOX"
    }
}

fn add(database: &Database, folder: &[u8], octets: &[u8]) -> i64 {
    database.prepare(c"BEGIN").run(&[]);
    let last = database.prepare(c"SELECT last FROM users WHERE user = 'ann'");
    last.run(&[]);
    let number = last.number(0) + 1;
    drop(last);
    let digest = sha256::digest(octets);
    let stored = database.prepare(c"SELECT octets FROM contents WHERE digest = ?1");
    if stored.run(&[Value::Octets(&digest)]) {
        assert!(stored.octets(0) == octets);
    } else {
        database.prepare(c"INSERT INTO contents VALUES (?1, ?2)").run(&[Value::Octets(&digest), Value::Octets(octets)]);
    }
    drop(stored);
    database.prepare(c"INSERT INTO entries VALUES ('ann', ?1, ?2, 0, x'', CAST('message/rfc822' AS BLOB), ?3)").run(&[
        Value::Number(number),
        Value::Octets(folder),
        Value::Octets(&digest),
    ]);
    database.prepare(c"UPDATE users SET last = ?1 WHERE user = 'ann'").run(&[Value::Number(number)]);
    database.prepare(c"COMMIT").run(&[]);
    number
}

fn deliver_all(database: &Database, mail: &[u8], mails: u32, folder: impl Fn(&[u8]) -> &'static [u8]) {
    for number in 0..mails {
        let own = [mail, &number.to_be_bytes()].concat();
        add(database, folder(&own), &own);
    }
}

pub fn deliver(mail: &[u8], rounds: u32) -> u64 {
    let database = Database::in_memory();
    deliver_all(&database, mail, rounds.max(1), folder_of);
    u64::from(rounds.max(1))
}

struct Entry {
    number: i64,
    folder: Vec<u8>,
    name: Vec<u8>,
    media: Vec<u8>,
    octets: i64,
}

fn listed(database: &Database) -> Vec<Entry> {
    let rows = database.prepare(
        c"SELECT number, folder, kind, name, media, length(octets) FROM entries JOIN contents USING (digest) WHERE user = 'ann' ORDER BY number",
    );
    let mut entries = Vec::new();
    let mut more = rows.run(&[]);
    while more {
        let entry = Entry { number: rows.number(0), folder: rows.octets(1), name: rows.octets(3), media: rows.octets(4), octets: rows.number(5) };
        entries.push(entry);
        more = rows.next();
    }
    entries
}

fn exported(database: &Database) -> Vec<u8> {
    let found = database.prepare(c"SELECT octets FROM entries JOIN contents USING (digest) WHERE user = 'ann' AND number = 1");
    found.run(&[]);
    codecs::text_of(&found.octets(0), codecs::Encoding::Base64Mime)
}

/// What the program prints that is called with these words on a depot in a file, where no text has an octet that is quoted.
pub fn on_file(command: &str, file: &CStr, mail: &[u8]) -> Vec<u8> {
    let database = Database::open(file);
    let text = |octets: &[u8]| String::from_utf8_lossy(octets).into_owned();
    match command {
        "deliver" => {
            let folder = folder_of(mail);
            let number = add(&database, folder, mail);
            format!("{number} message \"{}\"\n", text(folder)).into_bytes()
        }
        "list" => {
            let line = |entry: &Entry| {
                format!("{} message \"{}\" \"{}\" {} {}\n", entry.number, text(&entry.folder), text(&entry.name), text(&entry.media), entry.octets)
            };
            listed(&database).iter().map(line).collect::<String>().into_bytes()
        }
        _ => exported(&database),
    }
}

pub fn list(mails: u32, mail: &[u8], rounds: u32) -> u64 {
    let database = Database::in_memory();
    deliver_all(&database, mail, mails, |_| b"INBOX");
    if rounds == 0 {
        return 0;
    }
    total(rounds, || listed(&database).iter().map(|entry| entry.octets as u64).sum())
}

pub fn remove(mails: u32, mail: &[u8], rounds: u32) -> u64 {
    let database = Database::in_memory();
    deliver_all(&database, mail, mails, |_| b"INBOX");
    for round in 0..rounds {
        let own = [mail, &(mails + round).to_be_bytes()].concat();
        let number = add(&database, b"INBOX", &own);
        database.prepare(c"BEGIN").run(&[]);
        let found = database.prepare(c"SELECT digest FROM entries WHERE user = 'ann' AND number = ?1");
        found.run(&[Value::Number(number)]);
        let digest = found.octets(0);
        drop(found);
        database.prepare(c"DELETE FROM entries WHERE user = 'ann' AND number = ?1").run(&[Value::Number(number)]);
        database
            .prepare(c"DELETE FROM contents WHERE digest = ?1 AND NOT EXISTS (SELECT 1 FROM entries WHERE digest = ?1)")
            .run(&[Value::Octets(&digest)]);
        database.prepare(c"COMMIT").run(&[]);
    }
    u64::from(rounds)
}

pub fn export(mail: &[u8], rounds: u32) -> u64 {
    let database = Database::in_memory();
    deliver_all(&database, mail, 1, |_| b"INBOX");
    if rounds == 0 {
        return 0;
    }
    total(rounds, || {
        std::hint::black_box(exported(&database));
        1
    })
}
