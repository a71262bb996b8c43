//! Packs a capture of a hire, shows the records, looks one moment up, derives two signals and draws all levels.

mod capture;
mod draw;
mod show;

fn main() -> Result<(), Box<dyn std::error::Error>> {
    for line in show::hire(include_str!("capture.txt"))? {
        println!("{line}");
    }
    Ok(())
}
