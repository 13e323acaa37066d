//! Words, control requests, figures, and one folder.
use crate::server::shares::share;
use folder_shelf::{FolderFault, StoreSettings};
use gate_base::Tally;
use gate_limits::{Counts, Latencies, RequestKind};
use server_board::figures::StoreFigures;
use server_board::{Asked, Commit, ControlToken, Method, asked_by, metrics_text, status_text};
use server_options::{
    ListenWanted, LogFormat, LogLevel, Options, RedisPlace, Refusal, Restoring, Shares,
    StoreWanted, Task, read_config, read_size, read_store, read_words,
};
use server_stores::difference::Difference;
use server_stores::folders::{Found, Opening, look, open_folder, open_on_disk};
use server_stores::{ProgramFault, handles};
use share_store::Store;
use store_care::check;
use store_care::places::missing_places;
use std::alloc::Global;
use std::rc::RcSlice;
use std::test::Fail;
use std::time::Duration;
use std::{env, fs, process};

/// Two lines of a system's file of limits.
const LIMITS: &str =
    "Max processes             95288                95288                processes \nMax open files            1024                 524288               files     \n";

#[test]
fn the_limit_of_handles_is_read(rt: HostRuntime) {
    assert_eq!(rt; handles::soft_limit(LIMITS), Some(1024));
    assert_eq!(rt;
        handles::soft_limit(
            "Max open files            unlimited            unlimited            files     \n"
        ),
        None
    );
    assert_eq!(rt; handles::soft_limit("Max processes 1 2 processes\n"), None);
    assert_eq!(rt; handles::needed_for(900, 5), 937);
}

/// What the program is asked for with these words behind its name, or the refusal of them.
fn words_of(alloc: Global, given: &[&str]) -> Result<Vec<String>, Fail> {
    let mut words = Vec::new(alloc);
    words.push(String::from_str(alloc, "wozhinnam")?)?;
    for word in given {
        words.push(String::from_str(alloc, *word)?)?;
    }
    Ok(words)
}

#[test]
fn options_have_defaults(rt: HostRuntime) -> Result<(), Fail> {
    let words = words_of(rt.alloc(), &["serve"])?;
    let Ok(Task::Serve(options)) = read_words(rt.alloc(), &words) else {
        return Err(Fail::from("no options"));
    };
    assert_eq!(rt;
        options.listen.as_slice(),
        [listened("127.0.0.1:3456", None)].as_slice()
    );
    assert!(rt; options.control.is_none());
    assert!(rt; options.control_token_file.is_none());
    assert_eq!(rt;
        options.shares,
        Shares {
            needed: 3,
            made: 10
        }
    );
    assert_eq!(rt;
        options.stores.as_slice(),
        [StoreWanted::Memory(1_073_741_824); 5].as_slice()
    );
    assert!(rt; options.new.is_empty());
    assert!(rt; options.synced);
    assert!(rt; options.secret_file.is_none());
    assert!(rt; options.redis_password_file.is_none());
    assert_eq!(rt; options.connections, 900);
    assert!(rt; options.per_address.is_none());
    assert_eq!(rt; options.idle, 60);
    assert_eq!(rt; options.log_level, LogLevel::Info);
    assert_eq!(rt; options.log_format, LogFormat::Text);
    Ok(())
}

/// What `serve` is asked for with one option.
fn served_with(alloc: Global, words: &[String]) -> Result<Options<'_>, Fail> {
    match read_words(alloc, words) {
        Ok(Task::Serve(options)) => Ok(options),
        _ => Err(Fail::from("no options")),
    }
}

/// What `restore` is asked for.
fn restored_with(alloc: Global, words: &[String]) -> Result<Restoring<'_>, Fail> {
    match read_words(alloc, words) {
        Ok(Task::Restore(wanted)) => Ok(wanted),
        _ => Err(Fail::from("no image to restore")),
    }
}

/// Where connections are accepted.
fn listened<'a>(address: &'a str, secret_file: Option<&'a str>) -> ListenWanted<'a> {
    ListenWanted {
        address,
        secret_file,
    }
}

#[test]
fn listeners_may_have_secrets(rt: HostRuntime) -> Result<(), Fail> {
    let words = words_of(
        rt.alloc(),
        &[
            "serve",
            "--listen",
            "a:1,secret=/one,two",
            "--listen",
            "b:2",
        ],
    )?;
    assert_eq!(rt;
        served_with(rt.alloc(), &words)?.listen.as_slice(),
        [listened("a:1", Some("/one,two")), listened("b:2", None)].as_slice()
    );
    for text in ["a:1,", "a:1,secret=", "a:1,secrets=/x", "a:1,/x"] {
        let words = words_of(rt.alloc(), &["serve", "--listen", text])?;
        assert!(rt; matches!(read_words(rt.alloc(), &words), Err(Refusal::Listen)));
    }
    Ok(())
}

#[test]
fn each_text_that_is_given_is_taken(rt: HostRuntime) -> Result<(), Fail> {
    for value in ["127.0.0.1:1", "[::1]:2"] {
        let words = words_of(rt.alloc(), &["serve", "--listen", value])?;
        assert_eq!(rt;
            served_with(rt.alloc(), &words)?.listen.as_slice(),
            [listened(value, None)].as_slice()
        );
        let words = words_of(rt.alloc(), &["serve", "--control", value])?;
        assert!(rt; served_with(rt.alloc(), &words)?.control == Some(value));
        let words = words_of(rt.alloc(), &["serve", "--control-token-file", value])?;
        assert!(rt; served_with(rt.alloc(), &words)?.control_token_file == Some(value));
        let words = words_of(rt.alloc(), &["serve", "--secret-file", value])?;
        assert!(rt; served_with(rt.alloc(), &words)?.secret_file == Some(value));
        let words = words_of(rt.alloc(), &["serve", "--redis-password-file", value])?;
        assert!(rt; served_with(rt.alloc(), &words)?.redis_password_file == Some(value));
    }
    Ok(())
}

#[test]
fn each_number_that_is_given_is_taken(rt: HostRuntime) -> Result<(), Fail> {
    for (text, value) in [("7", 7), ("11", 11)] {
        let words = words_of(rt.alloc(), &["serve", "--connections", text])?;
        assert_eq!(rt; served_with(rt.alloc(), &words)?.connections, value);
        let words = words_of(rt.alloc(), &["serve", "--per-address", text])?;
        assert!(rt; served_with(rt.alloc(), &words)?.per_address == Some(value));
        let words = words_of(rt.alloc(), &["serve", "--idle", text])?;
        assert_eq!(rt; served_with(rt.alloc(), &words)?.idle, value as u64);
        let words = words_of(rt.alloc(), &["serve", "--servers", text])?;
        assert_eq!(rt; served_with(rt.alloc(), &words)?.stores.len(), value);
        let words = words_of(rt.alloc(), &["serve", "--servers", "2", "--room", text])?;
        assert_eq!(rt;
            served_with(rt.alloc(), &words)?.stores.as_slice(),
            [StoreWanted::Memory(value as u64); 2].as_slice()
        );
    }
    let words = words_of(rt.alloc(), &["serve", "--servers", "2", "--room", "3M"])?;
    assert_eq!(rt;
        served_with(rt.alloc(), &words)?.stores.as_slice(),
        [StoreWanted::Memory(3_145_728); 2].as_slice()
    );
    let words = words_of(rt.alloc(), &["serve", "--no-sync"])?;
    assert!(rt; !served_with(rt.alloc(), &words)?.synced);
    Ok(())
}

#[test]
fn the_shares_that_are_given_are_taken(rt: HostRuntime) -> Result<(), Fail> {
    for (text, needed, made) in [("2,5", 2, 5), ("1,256", 1, 256), ("+7,07", 7, 7)] {
        let shares = Shares { needed, made };
        let words = words_of(rt.alloc(), &["serve", "--shares", text])?;
        assert_eq!(rt; served_with(rt.alloc(), &words)?.shares, shares);
        let words = words_of(rt.alloc(), &["restore", "--shares", text, "image", "/a"])?;
        assert_eq!(rt; restored_with(rt.alloc(), &words)?.shares, shares);
    }
    Ok(())
}

#[test]
fn what_is_restored_is_synced_unless_it_is_not_to_be(rt: HostRuntime) -> Result<(), Fail> {
    let words = words_of(rt.alloc(), &["restore", "image", "/a"])?;
    let wanted = restored_with(rt.alloc(), &words)?;
    assert!(rt; wanted.synced);
    assert!(rt; wanted.secret_file.is_none());
    let words = words_of(rt.alloc(), &["restore", "--no-sync", "image", "/a"])?;
    assert!(rt; !restored_with(rt.alloc(), &words)?.synced);
    Ok(())
}

#[test]
fn the_log_is_as_it_is_named(rt: HostRuntime) -> Result<(), Fail> {
    for (name, level) in [
        ("error", LogLevel::Error),
        ("warn", LogLevel::Warn),
        ("info", LogLevel::Info),
        ("debug", LogLevel::Debug),
    ] {
        let words = words_of(rt.alloc(), &["serve", "--log-level", name])?;
        assert_eq!(rt; served_with(rt.alloc(), &words)?.log_level, level);
    }
    for (name, format) in [("text", LogFormat::Text), ("json", LogFormat::Json)] {
        let words = words_of(rt.alloc(), &["serve", "--log-format", name])?;
        assert_eq!(rt; served_with(rt.alloc(), &words)?.log_format, format);
    }
    let words = words_of(rt.alloc(), &["serve", "--log-level", "loud"])?;
    assert!(rt; read_words(rt.alloc(), &words).is_err());
    Ok(())
}

#[test]
fn folders_may_be_new(rt: HostRuntime) -> Result<(), Fail> {
    let words = words_of(
        rt.alloc(),
        &[
            "serve",
            "--store",
            "dir:/a",
            "--new",
            "/c",
            "--store",
            "mem:1",
            "--store",
            "dir:/c:5,disk",
            "--new",
            "/a",
        ],
    )?;
    let options = served_with(rt.alloc(), &words)?;
    assert_eq!(rt; options.new.as_slice(), ["/c", "/a"].as_slice());
    assert_eq!(rt; options.stores.len(), 3);
    Ok(())
}

#[test]
fn each_verb_is_its_task(rt: HostRuntime) -> Result<(), Fail> {
    let words = words_of(rt.alloc(), &["check", "/a", "/b"])?;
    let Ok(Task::Check(folders)) = read_words(rt.alloc(), &words) else {
        return Err(Fail::from("no folders to check"));
    };
    assert_eq!(rt; folders.as_slice(), ["/a", "/b"].as_slice());
    let words = words_of(
        rt.alloc(),
        &["repair", "--new", "/b", "--no-sync", "/a", "/b"],
    )?;
    let Ok(Task::Repair(wanted)) = read_words(rt.alloc(), &words) else {
        return Err(Fail::from("no folders to repair"));
    };
    assert_eq!(rt; wanted.places.as_slice(), ["/a", "/b"].as_slice());
    assert_eq!(rt; wanted.new.as_slice(), ["/b"].as_slice());
    assert!(rt; !wanted.synced);
    let words = words_of(rt.alloc(), &["image", "/a"])?;
    let Ok(Task::Image(folders)) = read_words(rt.alloc(), &words) else {
        return Err(Fail::from("no folders of an image"));
    };
    assert_eq!(rt; folders.as_slice(), ["/a"].as_slice());
    let words = words_of(
        rt.alloc(),
        &[
            "restore",
            "--secret-file",
            "s",
            "--no-sync",
            "image",
            "/a",
            "/b",
        ],
    )?;
    let wanted = restored_with(rt.alloc(), &words)?;
    assert!(rt; wanted.file == "image");
    assert_eq!(rt; wanted.folders.as_slice(), ["/a", "/b"].as_slice());
    assert!(rt; wanted.secret_file == Some("s"));
    assert!(rt; !wanted.synced);
    Ok(())
}

#[test]
fn a_file_of_options_is_named_whatever_it_has(rt: HostRuntime) -> Result<(), Fail> {
    for value in ["a", "/b.toml"] {
        let words = words_of(rt.alloc(), &["serve", "--new", "/c", "--config", value])?;
        let Ok(file) = read_config(rt.alloc(), &words) else {
            return Err(Fail::from("refused"));
        };
        assert!(rt; file == Some(value));
        assert!(rt; read_words(rt.alloc(), &words).is_err());
    }
    let none: [&[&str]; 2] = [&["serve"], &["check", "/a"]];
    for given in &none {
        let words = words_of(rt.alloc(), *given)?;
        let Ok(file) = read_config(rt.alloc(), &words) else {
            return Err(Fail::from("refused"));
        };
        assert!(rt; file.is_none());
    }
    Ok(())
}

#[test]
fn wrong_words_are_refused(rt: HostRuntime) -> Result<(), Fail> {
    let wrong: [&[&str]; 23] = [
        &["serve", "--shares", "4,3"],
        &["serve", "--shares", "0,3"],
        &["serve", "--shares", "3"],
        &["serve", "--shares", "3,257"],
        &["serve", "--servers", "0"],
        &["serve", "--servers", "257"],
        &["serve", "--room", "much"],
        &["serve", "--room", "1GB"],
        &["serve", "--new", "/a"],
        &["serve", "--new", "/b", "--store", "dir:/a"],
        &["serve", "--new", "/a/", "--store", "dir:/a:5"],
        &["serve", "--connections", "0"],
        &["serve", "--per-address", "0"],
        &["serve", "--per-address", "1000001"],
        &["serve", "--idle", "0"],
        &["serve", "--port", "80"],
        &["serve", "--store", "disk:/a"],
        &["serve", "--store", "mem:1", "--servers", "2"],
        &[
            "serve",
            "--store",
            "redis:h:1/a",
            "--store",
            "redis:h:1/a:5",
        ],
        &["check"],
        &["image"],
        &["restore", "image"],
        &["restore", "--shares", "4,3", "image", "/a"],
    ];
    for given in &wrong {
        let words = words_of(rt.alloc(), *given)?;
        assert!(rt; read_words(rt.alloc(), &words).is_err());
    }
    Ok(())
}

/// A place on a Redis server.
fn place<'a>(address: &'a str, name: &'a str) -> RedisPlace<'a> {
    RedisPlace { address, name }
}

#[test]
fn stores_are_named(rt: HostRuntime) {
    for (name, wanted) in [
        ("mem:0", Some(StoreWanted::Memory(0))),
        ("dir:/a/b", Some(StoreWanted::Folder("/a/b", 7))),
        ("dir:a:12", Some(StoreWanted::Folder("a", 12))),
        ("dir:a:b:12", Some(StoreWanted::Folder("a:b", 12))),
        ("dir:a:12,disk", Some(StoreWanted::Disk("a", 12))),
        ("dir:a:b:12,disk", Some(StoreWanted::Disk("a:b", 12))),
        ("dir:a,disk:12", Some(StoreWanted::Folder("a,disk", 12))),
        ("dir:/a/b,shared", Some(StoreWanted::Shared("/a/b"))),
        ("dir:a,disk,shared", Some(StoreWanted::Shared("a,disk"))),
        ("dir:a,shared:12", Some(StoreWanted::Folder("a,shared", 12))),
        ("dir:a:12,shared", None),
        ("dir:a:b,shared", None),
        ("dir:,shared", None),
        ("mem:12,shared", None),
        ("mem:", None),
        ("mem:1K", Some(StoreWanted::Memory(1024))),
        ("dir:a:12M", Some(StoreWanted::Folder("a", 12_582_912))),
        (
            "dir:a:b:3G,disk",
            Some(StoreWanted::Disk("a:b", 3_221_225_472)),
        ),
        (
            "redis:h:6379:2T",
            Some(StoreWanted::Redis(place("h:6379", ""), 2_199_023_255_552)),
        ),
        (
            "redis:h:6379/a:1K",
            Some(StoreWanted::Redis(place("h:6379", "a"), 1024)),
        ),
        ("mem:1k", None),
        ("mem:1KB", None),
        ("mem:K", None),
        ("dir:", None),
        ("dir::12", None),
        ("dir:a:12k", None),
        ("dir:a:16777216T", None),
        ("dir:a,disk", None),
        ("dir::12,disk", None),
        ("dir:a:,disk", None),
        ("dir:a:12,disc", None),
        ("dir:a:12,disk,disk", None),
        ("mem:12,disk", None),
        ("/a", None),
        (
            "redis:h:6379",
            Some(StoreWanted::Redis(place("h:6379", ""), 7)),
        ),
        (
            "redis:h:6379:12",
            Some(StoreWanted::Redis(place("h:6379", ""), 12)),
        ),
        (
            "redis:h:6379/a",
            Some(StoreWanted::Redis(place("h:6379", "a"), 7)),
        ),
        (
            "redis:[::1]:6379/a/b:12",
            Some(StoreWanted::Redis(place("[::1]:6379", "a/b"), 12)),
        ),
        (
            "redis:[::1]:6379:12",
            Some(StoreWanted::Redis(place("[::1]:6379", ""), 12)),
        ),
        ("redis:h", None),
        ("redis::6379", None),
        ("redis:h:65536", None),
        ("redis:h:6379/", None),
        ("redis:h:6379/:12", None),
        ("redis:h:6379/a:b:12", None),
        ("redis:h:6379/a:12k", None),
        ("redis:::1:6379", None),
        ("redis:h/a", None),
    ] {
        assert!(rt; read_store(name, 7) == wanted, "at {name}");
    }
}

/// Sizes, as `numfmt --from=iec` of GNU coreutils has them.
#[test]
fn sizes_have_units(rt: HostRuntime) {
    for (text, bytes) in [
        ("0", Some(0)),
        ("7", Some(7)),
        ("1K", Some(1024)),
        ("1M", Some(1_048_576)),
        ("1G", Some(1_073_741_824)),
        ("1T", Some(1_099_511_627_776)),
        ("1023T", Some(1_124_800_395_214_848)),
        ("18446744073709551615", Some(18_446_744_073_709_551_615)),
        ("18446744073709551616", None),
        ("18014398509481983K", Some(18_446_744_073_709_550_592)),
        ("18014398509481984K", None),
        ("16777215T", Some(18_446_742_974_197_923_840)),
        ("16777216T", None),
        ("", None),
        ("K", None),
        ("1k", None),
        ("1g", None),
        ("1GB", None),
        ("1Gi", None),
        ("1.5G", None),
        ("1 G", None),
        ("-1", None),
        ("+1", None),
        ("01", None),
        ("1P", None),
        ("G1", None),
    ] {
        assert!(rt; read_size(text) == bytes, "at {text}");
    }
}

/// A folder is made, served, and given up, and has what was put into it. It stands in the system's folder for such.
#[test]
fn a_folder_outlives_the_store_over_it(rt: HostRuntime) -> Result<(), Fail> {
    let alloc = rt.alloc();
    let top = env::temp_dir(&rt)?;
    let folder = format!(in alloc; "{}/wozhinnam-{}", top.as_str(), process::id(rt.process()))?;
    let folder = folder.as_str();
    let opening = Opening {
        settings: StoreSettings::new(0, 1, 1, 1, b"secret"),
        room: 1000,
        synced: false,
    };
    assert!(rt; look(&rt, folder, &opening.settings).map_err(Fail::new)? == Found::New);
    {
        let mut store = open_folder(&rt, folder, &opening).map_err(Fail::new)?;
        assert!(rt; store.put([7; 16], 0, share(alloc)?)?);
        let again = open_folder(&rt, folder, &opening);
        assert!(rt; again.err() == Some(ProgramFault::Folder(FolderFault::InUse)));
    }
    let other = StoreSettings::new(0, 1, 1, 1, b"other");
    let another_secret = Difference {
        place: None,
        servers: None,
        needed: None,
        made: None,
        secret: true,
    };
    assert!(rt; look(&rt, folder, &other) == Err(ProgramFault::OtherGrid(another_secret)));
    assert!(rt; look(&rt, folder, &opening.settings).map_err(Fail::new)? == Found::Ours);
    {
        let store = open_folder(&rt, folder, &opening).map_err(Fail::new)?;
        assert_eq!(rt; store.held(), 3);
    }
    assert!(rt; is_served_from_its_disk(&rt, folder, &opening)?);
    let store = open_folder(&rt, folder, &opening).map_err(Fail::new)?;
    assert_eq!(rt; store.held(), 6);
    check(&rt, &[folder]).map_err(Fail::new)?;
    fs::remove_dir_all(&rt, folder)?;
    Ok(())
}

#[test]
fn what_differs_is_told(rt: HostRuntime) -> Result<(), Fail> {
    let there = StoreSettings::new(1, 3, 2, 3, b"secret");
    let wanted = StoreSettings::new(0, 1, 4, 10, b"other");
    let text = format!(in rt.alloc(); "{}", Difference::between(&there, &wanted))?;
    assert!(rt;
        text.as_str()
            == "the folder belongs to another grid: place 1 and not 0; 3 servers and not 1; 2 shares needed and not 4; 3 shares made and not 10; another secret"
    );
    let wanted = StoreSettings::new(1, 3, 2, 5, b"secret");
    let text = format!(in rt.alloc(); "{}", Difference::between(&there, &wanted))?;
    assert!(rt;
        text.as_str()
            == "the folder belongs to another grid: 3 shares made and not 5; the same secret"
    );
    Ok(())
}

#[test]
fn missing_places_are_found(rt: HostRuntime) -> Result<(), Fail> {
    let missing = missing_places(rt.alloc(), 5, &[4, 0, 2])?;
    assert_eq!(rt; missing.as_slice(), [1, 3].as_slice());
    let missing = missing_places(rt.alloc(), 2, &[1, 0])?;
    assert!(rt; missing.is_empty());
    Ok(())
}

/// Whether a folder with a share is served from its disk, where that is read and another one put.
fn is_served_from_its_disk(
    rt: &HostRuntime,
    folder: &str,
    opening: &Opening,
) -> Result<bool, Fail> {
    let mut store = open_on_disk(rt, folder, opening).map_err(Fail::new)?;
    let held = store.held();
    let first = store.get([7; 16], 0)?;
    let is_put = store.put([7; 16], 1, share(rt.alloc())?) == Ok(true);
    let second = store.get([7; 16], 1)?;
    let again = open_folder(rt, folder, opening).err();
    Ok(
        held == 3
            && is_put
            && is_share(&first)
            && is_share(&second)
            && store.failures() == 0
            && again == Some(ProgramFault::Folder(FolderFault::InUse)),
    )
}

/// Whether these are the share's bytes.
fn is_share(bytes: &Option<RcSlice<u8>>) -> bool {
    match bytes {
        Some(bytes) => bytes.as_slice() == [9u8; 3].as_slice(),
        None => false,
    }
}

#[test]
fn control_requests_are_told_apart(rt: HostRuntime) {
    let get = b"GET".as_slice();
    let post = b"POST".as_slice();
    assert_eq!(rt; asked_by(get, b"/status".as_slice()), Asked::Status);
    assert_eq!(rt; asked_by(get, b"/metrics".as_slice()), Asked::Metrics);
    assert_eq!(rt; asked_by(post, b"/stop".as_slice()), Asked::Stop);
    assert_eq!(rt;
        asked_by(get, b"/stop".as_slice()),
        Asked::NotWith(Method::Post)
    );
    assert_eq!(rt;
        asked_by(post, b"/status".as_slice()),
        Asked::NotWith(Method::Get)
    );
    assert_eq!(rt; asked_by(get, b"/stop/".as_slice()), Asked::Nothing);
}

#[test]
fn tokens_are_visible_lines(rt: HostRuntime) -> Result<(), Fail> {
    for (bytes, is_one) in [
        (b"secret\n".as_slice(), true),
        (b"!~".as_slice(), true),
        (b"".as_slice(), false),
        (b"\n".as_slice(), false),
        (b"two words\n".as_slice(), false),
        (b"secret\r\n".as_slice(), false),
        (b"secret\n\n".as_slice(), false),
        (b"\xc3\xa9".as_slice(), false),
        ([b'a'; 256].as_slice(), true),
        ([b'a'; 257].as_slice(), false),
    ] {
        assert_eq!(rt; ControlToken::of(rt.alloc(), bytes)?.is_some(), is_one);
    }
    Ok(())
}

#[test]
fn commits_are_hexadecimal(rt: HostRuntime) -> Result<(), Fail> {
    for (bytes, is_one) in [
        (
            b"0123456789abcdef0123456789abcdef01234567\n".as_slice(),
            true,
        ),
        (b"0123abc".as_slice(), true),
        (b"0123ab\n".as_slice(), false),
        (b"0123abg".as_slice(), false),
        (b"0123abc-dirty\n".as_slice(), false),
        (b"".as_slice(), false),
        ([b'f'; 64].as_slice(), true),
        ([b'f'; 65].as_slice(), false),
    ] {
        assert_eq!(rt; Commit::named_by(rt.alloc(), bytes)?.is_some(), is_one);
    }
    Ok(())
}

/// Figures that are all different.
fn counts() -> Counts {
    Counts {
        open: 1,
        opened: 2,
        over: 3,
        failed: 4,
        late: 5,
        stopped: 6,
        replaced: 28,
        refused: 7,
        starved: 8,
        kept: 25,
        waiting: 26,
        bytes_in: 9,
        bytes_out: 10,
        seconds: 24,
        latencies: latencies(),
    }
}

/// Times of two requests that were got, one of them at a bound.
fn latencies() -> Latencies {
    let mut latencies = Latencies::new();
    latencies.observes(RequestKind::Get, Duration::from_millis(10));
    latencies.observes(RequestKind::Get, Duration::from_micros(2_000_500));
    latencies
}

/// Replies of which each status has another number.
fn tally() -> Tally {
    Tally {
        ok: 14,
        partial_content: 15,
        not_modified: 27,
        bad_request: 16,
        not_found: 17,
        method_not_allowed: 18,
        gone: 19,
        content_too_large: 20,
        range_not_satisfiable: 21,
        not_implemented: 22,
        service_unavailable: 23,
    }
}

const STORES: [StoreFigures; 1] = [StoreFigures {
    room: 11,
    held: 12,
    failures: 13,
}];

#[test]
fn the_status_is_json(rt: HostRuntime) -> Result<(), Fail> {
    let text = status_text(rt.alloc(), None, &counts(), &tally(), STORES.as_slice())?;
    assert!(rt;
        text.as_str()
            == "{\"connections\":{\"accept_paused\":8,\"failed\":4,\"late\":5,\"open\":1,\"opened\":2,\"over\":3,\"refused\":7,\"replaced\":28,\"stopped\":6,\"waiting\":26},\"kept\":25,\"received\":9,\"replies\":{\"200\":14,\"206\":15,\"304\":27,\"400\":16,\"404\":17,\"405\":18,\"410\":19,\"413\":20,\"416\":21,\"501\":22,\"503\":23},\"sent\":10,\"stores\":[{\"failures\":13,\"held\":12,\"room\":11}],\"uptime_seconds\":24,\"version\":\"0.1.0\"}"
    );
    Ok(())
}

#[test]
fn metrics_have_a_line_each(rt: HostRuntime) -> Result<(), Fail> {
    let commit = Commit::named_by(rt.alloc(), b"0123abc\n")?;
    let text = metrics_text(
        rt.alloc(),
        commit.as_ref(),
        &counts(),
        &tally(),
        STORES.as_slice(),
    )?;
    let wanted = [
        "# TYPE wozhinnam_build_info gauge\nwozhinnam_build_info{version=\"0.1.0\",commit=\"0123abc\"} 1\n",
        "# TYPE wozhinnam_request_seconds histogram\nwozhinnam_request_seconds_bucket{kind=\"get\",le=\"0.001\"} 0\n",
        "{kind=\"get\",le=\"0.003\"} 0\nwozhinnam_request_seconds_bucket{kind=\"get\",le=\"0.01\"} 1\n",
        "{kind=\"get\",le=\"1\"} 1\nwozhinnam_request_seconds_bucket{kind=\"get\",le=\"3\"} 2\nwozhinnam_request_seconds_bucket{kind=\"get\",le=\"10\"} 2\n",
        "wozhinnam_request_seconds_bucket{kind=\"get\",le=\"+Inf\"} 2\nwozhinnam_request_seconds_sum{kind=\"get\"} 2.0105\nwozhinnam_request_seconds_count{kind=\"get\"} 2\n",
        "wozhinnam_request_seconds_sum{kind=\"put\"} 0\nwozhinnam_request_seconds_count{kind=\"put\"} 0\n",
        "# TYPE wozhinnam_uptime_seconds gauge\nwozhinnam_uptime_seconds 24\n",
        "# HELP wozhinnam_connections Connections that are open.\n",
        "# TYPE wozhinnam_connections gauge\nwozhinnam_connections 1\n",
        "# TYPE wozhinnam_connections_waiting gauge\nwozhinnam_connections_waiting 26\n",
        "# TYPE wozhinnam_kept_bytes gauge\nwozhinnam_kept_bytes 25\n",
        "# TYPE wozhinnam_connections_late_total counter\nwozhinnam_connections_late_total 5\n",
        "wozhinnam_sent_bytes_total 10\n",
        "# TYPE wozhinnam_replies_total counter\nwozhinnam_replies_total{status=\"200\"} 14\n",
        "wozhinnam_replies_total{status=\"503\"} 23\n",
        "# TYPE wozhinnam_store_held_bytes gauge\nwozhinnam_store_held_bytes{store=\"0\"} 12\n",
        "# TYPE wozhinnam_store_failures_total counter\nwozhinnam_store_failures_total{store=\"0\"} 13\n",
    ];
    for line in &wanted {
        assert!(rt; text.as_str().contains(*line));
    }
    Ok(())
}
