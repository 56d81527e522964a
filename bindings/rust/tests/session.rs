//! Each call of a session; and what h5py, where it is installed, and the reference of the repository read in the same file.

use h5i::{About, Fault, NewArray, Session, Slab, Storage, Type};
use std::path::PathBuf;
use std::process::Command;

fn made() -> Result<Session, Fault> {
    let mut session = Session::create()?;
    session.create_group("/g")?;
    session.create_array("/g/d", &NewArray::<i32>::chunked(&[3, 4], &[2, 3]).maxima(&[None, Some(4)]).fill(-7))?;
    session.write("/g/d", &Slab::new(&[0, 0], &[2, 2]).stride(&[2, 3]), &[1u8, 2, 3, 4])?;
    session.set_attribute("/g", "unit", &[2], &[109i16, -115])?;
    session.hard_link("/g/d", "/h")?;
    session.soft_link("/nowhere", "/s")?;
    Ok(session)
}

const CELLS: [i32; 12] = [1, -7, -7, 2, -7, -7, -7, -7, 3, -7, -7, 4];

#[test]
fn tells_what_stands_there() -> Result<(), Fault> {
    let mut session = made()?;
    let About::Array(array) = session.about("/g/d")? else { panic!("no array") };
    assert_eq!(array.cell, Type { size: 4, is_signed: true, is_big: false });
    assert_eq!((array.dims, array.maxima), (vec![3, 4], vec![None, Some(4)]));
    assert_eq!((array.storage, array.fill), (Storage::Chunked(vec![2, 3]), -7));
    assert_eq!(session.about("/g")?, About::Group);
    assert_eq!(session.about("/s")?, About::SoftLink);
    assert_eq!(session.link_text("/s")?, b"/nowhere");
    assert_eq!(session.link_text("/g"), Err(Fault::NotASoftLink));
    assert_eq!(session.number("/h")?, session.number("/g/d")?);
    assert_eq!(session.names("/")?.collect::<Vec<_>>(), [b"g", b"h", b"s"]);
    assert_eq!(session.attribute_names("/g")?.collect::<Vec<_>>(), [b"unit"]);
    let unit = session.attribute("/g", "unit")?;
    assert_eq!((unit.cell.size, unit.dims, unit.bytes), (2, vec![2], vec![109, 0, 141, 255]));
    Ok(())
}

#[test]
fn reads_and_refuses_by_name() -> Result<(), Fault> {
    let mut session = made()?;
    let all = Slab::new(&[0, 0], &[3, 4]);
    assert_eq!(session.read::<i32>("/h", &all)?, CELLS);
    let image = session.image()?;
    assert_eq!(session.read::<u32>("/h", &all), Err(Fault::WrongRoom));
    assert_eq!(session.read_into("/h", &all, &mut [0i32; 11]), Err(Fault::WrongRoom));
    assert_eq!(session.read::<i32>("/h", &Slab::new(&[0, 0], &[4, 4])), Err(Fault::OutOfExtent));
    assert_eq!(session.read::<i32>("/h", &Slab::new(&[0, 0], &[u64::MAX, u64::MAX])), Err(Fault::OutOfExtent));
    assert_eq!(session.read::<i32>("/h", &Slab::new(&[0], &[1])), Err(Fault::RankMismatch));
    assert_eq!(session.read::<i32>("/g", &all), Err(Fault::NotADataset));
    assert_eq!(session.write("/h", &Slab::new(&[0, 0], &[1, 1]), &[1i64 << 40]), Err(Fault::ValueRange));
    assert_eq!(session.write("/h", &Slab::new(&[0, 0], &[1, 2]), &[1i64]), Err(Fault::ValueCount));
    assert_eq!(session.create_group("/g"), Err(Fault::AlreadyThere));
    assert_eq!(session.resize("/h", &[3, 5]), Err(Fault::AboveMaximum));
    assert_eq!(session.unlink("/"), Err(Fault::IsRoot));
    assert_eq!(session.remove_attribute("/g", "none"), Err(Fault::NoSuchAttribute));
    assert_eq!(session.image()?, image);
    assert_eq!(Session::open(&image[..400]).err(), Some(Fault::NotAFile { cause: 2, address: 40 }));
    assert_eq!(Session::open(b"").err(), Some(Fault::NotAFile { cause: 1, address: 0 }));
    assert_eq!(Session::open(&image)?.read::<i32>("/g/d", &all)?, CELLS);
    Ok(())
}

#[test]
fn numbers_of_any_type() -> Result<(), Fault> {
    let mut session = made()?;
    assert_eq!(session.read_numbers("/h")?, CELLS.map(i128::from));
    assert_eq!(session.attribute("/g", "unit")?.numbers(), [109, -115]);
    session.create_array("/u", &NewArray::<u64>::contiguous(&[2, 2]).fill(u64::MAX))?;
    assert_eq!(session.read_numbers("/u")?, [i128::from(u64::MAX); 4]);
    assert_eq!(session.read_numbers("/g"), Err(Fault::NotADataset));
    session.run(b"dataset /b i16be 2 contiguous fill=-2\n")?;
    assert_eq!(session.read_numbers("/b")?, [-2, -2]);
    assert!(session.contains("/b") && session.contains("/s") && !session.contains("/none"));
    Ok(())
}

#[test]
fn faults_have_names() {
    assert_eq!(Fault::NotFound.name(), "NotFound");
    assert!(Fault::ValueRange.to_string().starts_with("ValueRange: a value"));
    let fault = Session::open(b"nothing").err().expect("it is no file");
    assert_eq!((fault.name(), fault.to_string().as_str()), ("NotHdf5", "NotHdf5: the bytes break rule 1 at byte 0"));
    assert!(format!("{:?}", made()).contains("Session"));
}

#[test]
fn views_follow() -> Result<(), Fault> {
    let mut session = made()?;
    let view = session.open_view("/g/d", &Slab::new(&[1, 0], &[2, 2]))?;
    assert_eq!(session.show::<i32>(view)?, [-7, -7, 3, -7]);
    session.write("/h", &Slab::new(&[1, 0], &[1, 2]), &[5i32, 6])?;
    assert_eq!(session.show::<i32>(view)?, [5, 6, 3, -7]);
    assert_eq!(session.show_bytes(view)?.len(), 16);
    session.resize("/h", &[2, 4])?;
    assert_eq!(session.show::<i32>(view), Err(Fault::OutsideNow));
    session.unlink("/h")?;
    session.unlink("/g/d")?;
    assert_eq!(session.show::<i32>(view), Err(Fault::Gone));
    session.close_view(view)?;
    assert_eq!(session.close_view(view), Err(Fault::NoSuchView));
    Ok(())
}

#[test]
fn edits_and_scripts() -> Result<(), Fault> {
    let mut session = made()?;
    assert_eq!(session.run(b"group /x\nunlink /none\n")?, b"ok 0\nrefused 6 NotFound\n");
    session.remove_attribute("/g", "unit")?;
    assert_eq!(session.attribute_names("/g")?.count(), 0);
    session.create_array("/c", &NewArray::<u8>::compact(&[2]).fill(9))?;
    session.create_array("/scalar", &NewArray::<i64>::contiguous(&[]))?;
    session.write("/scalar", &Slab::new(&[], &[]), &[-1i8])?;
    assert_eq!(session.read::<i64>("/scalar", &Slab::new(&[], &[]))?, [-1]);
    session.repack()?;
    assert_eq!(session.read::<u8>("/c", &Slab::new(&[0], &[2]))?, [9, 9]);
    Ok(())
}

#[test]
fn groups_go_whole() -> Result<(), Fault> {
    let mut session = made()?;
    session.create_group("/g/deeper")?;
    session.create_array("/g/deeper/c", &NewArray::<u8>::compact(&[2]).fill(9))?;
    let all = Slab::new(&[0, 0], &[3, 4]);
    let (stays, goes) = (session.open_view("/g/d", &all)?, session.open_view("/g/deeper/c", &Slab::new(&[0], &[2]))?);
    session.unlink("/g")?;
    assert_eq!(session.names("/")?.collect::<Vec<_>>(), [b"h", b"s"]);
    assert_eq!((session.show::<i32>(stays)?, session.show::<u8>(goes)), (CELLS.to_vec(), Err(Fault::Gone)));
    assert_eq!(session.unlink("/g"), Err(Fault::NotFound));
    session.unlink("/h")?;
    assert_eq!(session.show::<i32>(stays), Err(Fault::Gone));
    Ok(())
}

/// What Python prints of the file; `None`, with a word, where a module is not installed.
fn python(program: &str, module: &str, script: &str, image: &[u8]) -> Option<String> {
    let path = std::env::temp_dir().join(format!("h5i-{module}-{}.h5", std::process::id()));
    std::fs::write(&path, image).expect("a file in the folder of temporary files");
    let reference = PathBuf::from(env!("CARGO_MANIFEST_DIR")).join("../../tests/reference");
    let done = Command::new(program).env("PYTHONPATH", reference).args(["-c", script]).arg(&path).output();
    std::fs::remove_file(&path).expect("it was written");
    match done {
        Ok(done) if done.status.success() => Some(String::from_utf8(done.stdout).expect("text")),
        Ok(done) if String::from_utf8_lossy(&done.stderr).contains("ModuleNotFoundError") => {
            eprintln!("skipped: {module} is not there");
            None
        }
        Ok(done) => panic!("{}", String::from_utf8_lossy(&done.stderr)),
        Err(_) => {
            eprintln!("skipped: {program} is not there");
            None
        }
    }
}

#[test]
fn h5py_reads_the_same() -> Result<(), Fault> {
    let script = "import h5py, sys\nf = h5py.File(sys.argv[1])\nprint(f['g/d'][()].ravel().tolist(), f['g'].attrs['unit'].tolist())";
    if let Some(text) = python("/usr/bin/python3", "h5py", script, &made()?.image()?) {
        assert_eq!(text.trim(), format!("{CELLS:?} [109, -115]"));
    }
    Ok(())
}

#[test]
fn the_reference_reads_the_same() -> Result<(), Fault> {
    let script = "import sys\nfrom h5oracle import model, reader\ntree = reader.open_image(open(sys.argv[1], 'rb').read()).tree\n\
                  d = tree.objects[model.look(tree, [b'g', b'd'])[1][1]]\nprint([d.cell((i, j)) for i in range(3) for j in range(4)])";
    if let Some(text) = python("python3", "h5oracle", script, &made()?.image()?) {
        assert_eq!(text.trim(), format!("{CELLS:?}"));
    }
    Ok(())
}
