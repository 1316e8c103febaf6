//! A plain interpreter of the machine that docs/use/machine.md describes, for comparing speeds alone: code is decoded
//! once, memory is plain arrays, nothing is proved and no image is judged.
//!
//!     interpreter IMAGE LIMIT
//!
//! runs an image that `capfw image` wrote, and writes the lines that `capfw runimage` writes after the report line.

mod boot;
mod heap;
mod image;
mod instructions;
mod machine;
mod memory;
mod native;
mod step;
mod words;

fn main() -> Result<(), Box<dyn std::error::Error>> {
    let words: Vec<String> = std::env::args().collect();
    let [_, path, limit] = words.as_slice() else {
        return Err("interpreter IMAGE LIMIT".into());
    };
    let data = std::fs::read(path)?;
    let mut machine = boot::boot(image::read(&data));
    machine.run(limit.parse()?, &mut std::io::stdout().lock())?;
    Ok(())
}
