//! Files that are opened as sides, with the metadata beside them.
#![cfg(all(feature = "metadata", unix, target_pointer_width = "64"))]

#[allow(dead_code)]
mod drawn;

use drawn::{draw, picture};
use ldvbi::{Counted, MetaFault, Number, OpenError, Side, SideOptions, System};
use std::path::{Path, PathBuf};
use std::{env, fs, process};

/// A folder of this process, with a PAL side of 20 pictures and this metadata beside it.
fn folder(name: &str, metadata: Option<&str>) -> PathBuf {
    let folder = env::temp_dir().join(format!("ldvbi-opened-{}-{name}", process::id()));
    fs::create_dir(&folder).unwrap();
    let rows: Vec<_> = (0..20).flat_map(|number| [[0, picture(number), picture(number)], [0; 3]]).collect();
    fs::write(folder.join("side.tbc"), draw(System::Pal, &rows)).unwrap();
    if let Some(metadata) = metadata {
        fs::write(folder.join("side.tbc.json"), metadata).unwrap();
    }
    folder
}

/// What opening says, of which the folder is left out.
fn said(folder: &Path) -> String {
    let fault = Side::open(folder.join("side.tbc")).unwrap_err();
    fault.to_string().replace(&format!("{}/", folder.display()), "")
}

const PARAMETERS: &str = r#"{"videoParameters":{"system":"PAL","black16bIre":16384,"white16bIre":51200}}"#;

#[test]
fn takes_the_settings_beside_the_file() {
    let folder = folder("right", Some(PARAMETERS));
    let side = Side::open(folder.join("side.tbc")).unwrap();
    assert_eq!((side.system(), side.len(), side.cut_bytes()), (System::Pal, 40, 0));
    assert_eq!(side.number(Counted::Pictures, 24), Some(Number::Believed(12)));
    assert_eq!(side.whole(SideOptions::new(Counted::Pictures)).padded, 0);
    #[cfg(target_os = "linux")]
    {
        // The kernel says of the mapping that it reads nothing ahead.
        let maps = fs::read_to_string("/proc/self/smaps").unwrap();
        let flags = maps.split("side.tbc\n").skip(1).map(|one| one.lines().find(|line| line.starts_with("VmFlags")));
        assert!(flags.into_iter().all(|one| one.unwrap().contains(" rr")) && maps.contains("right/side.tbc\n"));
    }
    fs::remove_dir_all(folder).unwrap();
}

#[test]
fn takes_the_padding_beside_the_file() {
    let fields = r#","fields":[{"pad":true},{},{"pad":false},{"pad":1},{"pad":true}]}"#;
    let folder = folder("padded", Some(&(PARAMETERS[..PARAMETERS.len() - 1].to_owned() + fields)));
    let side = Side::open(folder.join("side.tbc")).unwrap();
    assert_eq!(side.whole(SideOptions::new(Counted::Pictures)).padded, 2);
    fs::remove_dir_all(folder).unwrap();
}

#[test]
fn names_the_file_that_has_a_fault() {
    for (name, metadata, wanted) in [
        ("absent", None, "side.tbc.json: No such file or directory (os error 2)"),
        ("text", Some("PAL"), "side.tbc.json: metadata is not JSON"),
        ("empty", Some("{}"), "side.tbc.json: metadata has no videoParameters"),
        ("unlevelled", Some(r#"{"videoParameters":{"system":"PAL"}}"#), "side.tbc.json: no black level given"),
    ] {
        let folder = folder(name, metadata);
        assert_eq!(said(&folder), wanted);
        fs::remove_dir_all(folder).unwrap();
    }
    let folder = folder("short", Some(PARAMETERS));
    fs::write(folder.join("side.tbc"), [0; 1]).unwrap();
    assert_eq!(said(&folder), "side.tbc: a field has 710510 bytes, and these are 1");
    assert!(matches!(Side::open(folder.join("side.tbc")), Err(OpenError::Side { .. })));
    fs::remove_file(folder.join("side.tbc")).unwrap();
    assert_eq!(said(&folder), "side.tbc: No such file or directory (os error 2)");
    fs::create_dir(folder.join("side.tbc")).unwrap();
    assert_eq!(said(&folder), "side.tbc: it is no file");
    fs::remove_dir(folder.join("side.tbc")).unwrap();
    fs::write(folder.join("side.tbc"), []).unwrap();
    assert!(Side::open(folder.join("side.tbc")).unwrap().is_empty());
    #[cfg(target_os = "linux")]
    {
        fs::remove_file(folder.join("side.tbc")).unwrap();
        std::os::unix::fs::symlink("/sys/kernel/uevent_seqnum", folder.join("side.tbc")).unwrap();
        assert_eq!(said(&folder), "side.tbc: No such device (os error 19)"); // it isn't mapped
    }
    // One byte more than is allowed
    fs::File::create(folder.join("side.tbc.json")).unwrap().set_len((256 << 20) + 1).unwrap();
    assert_eq!(said(&folder), "side.tbc.json: metadata too large");
    let fault = Side::open(folder.join("side.tbc")).err();
    assert!(matches!(fault, Some(OpenError::Metadata { fault: MetaFault::TooLarge, .. })));
    fs::remove_dir_all(folder).unwrap();
}
