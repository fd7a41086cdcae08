//! Writes inputs to compare by: `generate SEED COUNT DIR`.

use std::error::Error;
use std::path::Path;
use std::{env, fs};

use reference::generate;

fn main() -> Result<(), Box<dyn Error>> {
    let arguments: Vec<String> = env::args().skip(1).collect();
    let [seed, count, folder] = &arguments[..] else {
        return Err("usage: generate SEED COUNT DIR".into());
    };
    let (seed, count): (u64, u64) = (seed.parse()?, count.parse()?);
    let folder = Path::new(folder);
    fs::create_dir_all(folder)?;
    for index in 0..count {
        fs::write(
            folder.join(format!("{index}.bin")),
            generate::input(seed, index),
        )?;
    }
    Ok(())
}
